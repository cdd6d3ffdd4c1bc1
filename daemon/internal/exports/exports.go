package exports

import (
	"context"
	"fmt"
	"io"
	"maps"
	"os"
	"slices"
	"strconv"
	"strings"
	"time"

	controlapi "github.com/moby/buildkit/api/services/control"
	"github.com/moby/buildkit/exporter/containerimage/exptypes"
	"github.com/moby/buildkit/session"
	"github.com/moby/buildkit/session/filesync"
	"github.com/moby/buildkit/solver/pb"
	ocispecs "github.com/opencontainers/image-spec/specs-go/v1"
	"github.com/tonistiigi/fsutil"
	fstypes "github.com/tonistiigi/fsutil/types"
	"google.golang.org/grpc/codes"
	"google.golang.org/grpc/status"
	"llbm/daemon/internal/contents"
	"llbm/daemon/internal/provenance"
	"llbm/daemon/internal/results"
)

// Results are those of a build: one without an ID, or one for each platform.
type Results struct {
	Single   *results.Result
	ByID     map[string]*results.Result
	Metadata map[string][]byte
}

// An Exporter is one that a client asked for, with its number in the client's list.
type Exporter struct {
	Number int
	Kind   string
	image  imageOptions
	when   time.Time
	given  *time.Time // the time, if the client gave it
	split  bool
	store  *contents.Store
	// Provenance is what is asked for of how results were made, or nil.
	Provenance *provenance.Asked
}

const (
	keyEpoch = "source-date-epoch"
	keySplit = "platform-split"
)

// Asked returns the exporters that a request asks for, with the provenance. Layers are in the store until they are sent.
func Asked(req *controlapi.SolveRequest, store *contents.Store, worker pb.Platform) ([]*Exporter, error) {
	var out []*Exporter
	for i, asked := range req.Exporters {
		e, err := New(i, asked, store)
		if err != nil {
			return nil, err
		}
		out = append(out, e)
	}
	asked, err := provenance.AskedBy(req.Frontend, req.FrontendAttrs, worker)
	if err != nil {
		return nil, err
	}
	for _, e := range out {
		e.Provenance = asked
	}
	return out, nil
}

// New reads the options of an exporter, and refuses what it can't do. Layers are in the store until they are sent.
func New(number int, asked *controlapi.Exporter, store *contents.Store) (*Exporter, error) {
	e := &Exporter{Number: number, Kind: asked.Type, when: time.Unix(0, 0), split: true, store: store}
	e.image = imageOptions{kind: e.Kind, types: ociTypes, packing: packing{form: "gzip"}}
	switch e.Kind {
	case "local", "tar", "oci":
	case "docker":
		e.image.types = dockerTypes
	default:
		return nil, status.Errorf(codes.Unimplemented, "exporter %q: llbmd has local, tar, oci and docker\n%s", asked.Type, insteadOfImages)
	}
	for _, k := range slices.Sorted(maps.Keys(asked.Attrs)) {
		if err := e.set(k, asked.Attrs[k]); err != nil {
			return nil, err
		}
	}
	return e, e.image.check()
}

// insteadOfImages is what can be done where an image was to be stored or pushed.
const insteadOfImages = "--output type=oci,dest=FILE writes the image, and `skopeo copy oci-archive:FILE docker://NAME` pushes it; " +
	"`docker load` reads one of type=docker,dest=FILE"

// set reads an option. One that would change the export and has no effect here is refused.
func (e *Exporter) set(key, value string) (err error) {
	switch {
	case key == keyEpoch:
		err = e.setEpoch(value)
	case key == keySplit:
		e.split, err = strconv.ParseBool(value)
	case e.isImage():
		return e.image.set(key, value)
	default:
		return status.Errorf(codes.Unimplemented, "exporter %s: the option %s=%s", e.Kind, key, value)
	}
	if err != nil {
		return status.Errorf(codes.InvalidArgument, "exporter %s: %s=%q: %v", e.Kind, key, value, err)
	}
	return nil
}

func (e *Exporter) setEpoch(text string) error {
	if text == "" {
		return nil
	}
	seconds, err := strconv.ParseInt(text, 10, 64)
	e.when = time.Unix(seconds, 0).UTC()
	e.given = &e.when
	return err
}

func (e *Exporter) isImage() bool { return e.Kind == "oci" || e.Kind == "docker" }

// Name is what progress displays show.
func (e *Exporter) Name() string {
	if e.isImage() {
		return "exporting to " + e.Kind + " image format"
	}
	return map[string]string{"local": "exporting to client directory", "tar": "exporting to client tarball"}[e.Kind]
}

// named is a result with its platform.
type named struct {
	exptypes.Platform
	result *results.Result
}

// unsaid is the platform of a result of which nobody says it, whatever host the daemon runs on.
var unsaid = ocispecs.Platform{OS: "linux", Architecture: "amd64"}

// list returns the results in the order of their platforms, and whether there is one for each platform.
func (r *Results) list() ([]named, bool, error) {
	byID := len(r.ByID) > 0
	if _, ok := r.Metadata[exptypes.ExporterPlatformsKey]; byID && !ok {
		return nil, byID, status.Error(codes.InvalidArgument, "unable to export multiple refs, missing platforms mapping")
	}
	all, err := exptypes.ParsePlatforms(r.Metadata)
	if err != nil {
		return nil, byID, status.Error(codes.InvalidArgument, err.Error())
	}
	if _, ok := r.Metadata[exptypes.ExporterPlatformsKey]; !ok {
		all.Platforms[0].Platform = unsaid
	}
	if !byID {
		if len(all.Platforms) > 1 {
			return nil, byID, status.Error(codes.InvalidArgument, "unable to export multiple platforms without map")
		}
		return []named{{all.Platforms[0], r.Single}}, false, nil
	}
	var out []named
	for _, p := range all.Platforms {
		result, ok := r.ByID[p.ID]
		if !ok {
			return nil, byID, status.Errorf(codes.InvalidArgument, "failed to find ref for ID %s", p.ID)
		}
		out = append(out, named{p, result})
	}
	return out, byID, nil
}

// A Watch is told that an export goes on.
type Watch struct {
	Moved func()       // something was packed, or is about to be sent
	Sent  func(int64)  // so many bytes have been sent
	Warn  func(string) // what is exported is not what BuildKit exports
}

// moving is a writer that says when something was written.
type moving struct {
	io.Writer
	moved func()
}

func (m moving) Write(data []byte) (int, error) {
	n, err := m.Writer.Write(data)
	m.moved()
	return n, err
}

// Export sends results, and returns what the client is told of them.
func (e *Exporter) Export(ctx context.Context, caller session.Caller, all *Results, watch Watch) (map[string]string, error) {
	list, byID, err := all.list()
	if err != nil {
		return nil, err
	}
	switch e.Kind {
	case "local":
		return nil, e.local(ctx, caller, list, byID, watch)
	case "tar":
		return nil, e.send(ctx, caller, nil, watch, func(to io.Writer) error {
			all, err := e.joined(list, byID, watch)
			if err != nil {
				return err
			}
			return fsutil.WriteTar(ctx, all, to)
		})
	default:
		return e.oci(ctx, caller, list, byID, all.Metadata, watch)
	}
}

func (e *Exporter) folder(id string) fstypes.Stat {
	return fstypes.Stat{Mode: uint32(os.ModeDir | 0o755), Path: strings.ReplaceAll(id, "/", "_"), ModTime: e.when.UnixNano()}
}

// joined are the files of all results: each below a folder with its platform's name, if there is one for each platform.
func (e *Exporter) joined(list []named, byID bool, watch Watch) (fsutil.FS, error) {
	if !byID {
		return e.files(list[0], "", watch)
	}
	var dirs []fsutil.Dir
	for _, one := range list {
		all, err := e.files(one, "", watch)
		if err != nil {
			return nil, err
		}
		dirs = append(dirs, fsutil.Dir{FS: all, Stat: e.folder(one.ID)})
	}
	return fsutil.SubDirFS(dirs)
}

func (e *Exporter) local(ctx context.Context, caller session.Caller, list []named, byID bool, watch Watch) error {
	seen := map[string]string{}
	for _, one := range list {
		suffix := ""
		if byID && !e.split {
			suffix = "." + strings.ReplaceAll(one.ID, "/", "_")
		}
		out, err := e.files(one, suffix, watch)
		if err != nil {
			return err
		}
		if byID && e.split {
			if out, err = fsutil.SubDirFS([]fsutil.Dir{{FS: out, Stat: e.folder(one.ID)}}); err != nil {
				return err
			}
		}
		if !e.split {
			if err := unique(one, seen); err != nil {
				return err
			}
		}
		if err := filesync.CopyToCaller(ctx, out, e.Number, caller, func(n int, _ bool) { watch.Sent(int64(n)) }); err != nil {
			return err
		}
	}
	return nil
}

// unique refuses a file that an earlier result has too.
func unique(one named, seen map[string]string) error {
	for i := range one.result.Tree {
		entry := &one.result.Tree[i]
		if entry.Dir {
			continue
		}
		if before, ok := seen[entry.Path]; ok {
			return status.Errorf(codes.InvalidArgument, "cannot overwrite %s from %s with %s when split option is disabled", entry.Path, before, one.ID)
		}
		seen[entry.Path] = one.ID
	}
	return nil
}

// send writes one file to the client.
func (e *Exporter) send(
	ctx context.Context, caller session.Caller, metadata map[string]string, watch Watch, write func(io.Writer) error,
) error {
	out, err := filesync.CopyFileWriter(ctx, metadata, e.Number, caller)
	if err != nil {
		return fmt.Errorf("%s: %w", e.Name(), err)
	}
	err = write(&counted{to: out, sent: watch.Sent})
	if closed := out.Close(); err == nil {
		err = closed
	}
	if err != nil {
		return fmt.Errorf("%s: %w", e.Name(), err)
	}
	return nil
}

// counted counts the bytes that are written.
type counted struct {
	to   io.Writer
	n    int64
	sent func(int64)
}

func (c *counted) Write(data []byte) (int, error) {
	n, err := c.to.Write(data)
	c.n += int64(n)
	c.sent(c.n)
	return n, err
}
