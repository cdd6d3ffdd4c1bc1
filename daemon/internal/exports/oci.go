package exports

import (
	"archive/tar"
	"bytes"
	"context"
	"encoding/base64"
	"encoding/json"
	"fmt"
	"io"
	"maps"
	"path"
	"slices"
	"strings"
	"time"

	"github.com/containerd/containerd/content"
	"github.com/containerd/containerd/images"
	containerd "github.com/containerd/containerd/reference"
	"github.com/distribution/reference"
	"github.com/moby/buildkit/exporter/containerimage/exptypes"
	"github.com/moby/buildkit/session"
	sessioncontent "github.com/moby/buildkit/session/content"
	digest "github.com/opencontainers/go-digest"
	"github.com/opencontainers/image-spec/specs-go"
	ocispecs "github.com/opencontainers/image-spec/specs-go/v1"
	"google.golang.org/grpc/codes"
	"google.golang.org/grpc/status"
	"llbm/daemon/internal/contents"
	"llbm/daemon/internal/tree"
)

// A blob is a content of an image, with its descriptor's data.
type blob struct {
	digest digest.Digest
	size   int64
	open   func() io.Reader
}

// An image is what an archive in the OCI layout has.
type image struct {
	e     *Exporter
	watch Watch
	pack  *contents.Pack
	names []string
	blobs []blob       // in the order of the archive
	saved []dockerSave // what `docker load` reads of the images

	annotations []annotation
}

// oci sends an archive in the OCI layout: each result is an image of one layer, and nothing depends on the time of the export.
func (e *Exporter) oci(
	ctx context.Context, caller session.Caller, list []named, byID bool, metadata map[string][]byte, watch Watch,
) (map[string]string, error) {
	if e.Kind == "docker" && (byID || e.Provenance != nil) {
		return nil, status.Error(codes.InvalidArgument, "docker exporter does not currently support exporting manifest lists")
	}
	names, err := e.image.names(metadata)
	if err != nil {
		return nil, err
	}
	i := &image{e: e, watch: watch, names: names}
	defer i.close()
	if i.annotations, err = annotationsIn(metadata, e.image.annotations); err != nil {
		return nil, err
	}
	if err := checkAnnotations(i.annotations, list, byID); err != nil {
		return nil, err
	}
	top, config, err := i.add(ctx, list, byID, metadata)
	if err != nil {
		return nil, err
	}
	descriptor, err := json.Marshal(top)
	if err != nil {
		return nil, err
	}
	response := map[string]string{
		exptypes.ExporterImageDigestKey:     top.Digest.String(),
		exptypes.ExporterImageDescriptorKey: base64.StdEncoding.EncodeToString(descriptor),
	}
	if config != "" {
		response[exptypes.ExporterImageConfigDigestKey] = config.String()
	}
	if len(names) > 0 {
		response["image.name"] = strings.Join(names, ",")
	}
	if e.image.isFolder {
		return response, i.store(ctx, caller)
	}
	return response, e.send(ctx, caller, response, watch, func(to io.Writer) error { return i.write(to, top) })
}

// store writes the blobs into the client's folder, what others name before them. The client adds the image to the folder's index.
func (i *image) store(ctx context.Context, caller session.Caller) error {
	to := sessioncontent.NewCallerStore(caller, "export")
	written := map[digest.Digest]bool{}
	for _, b := range slices.Backward(i.blobs) {
		if written[b.digest] {
			continue
		}
		written[b.digest] = true
		desc := ocispecs.Descriptor{Digest: b.digest, Size: b.size}
		from := io.TeeReader(b.open(), moving{io.Discard, i.watch.Moved})
		if err := content.WriteBlob(ctx, to, "llbmd-"+b.digest.String(), from, desc); err != nil {
			return fmt.Errorf("%s: %w", i.e.Name(), err)
		}
	}
	return nil
}

func (i *image) close() {
	if i.pack != nil {
		i.pack.Drop()
	}
}

// add makes the manifests of all results, and returns the descriptor of the image, or of the index of several.
func (i *image) add(ctx context.Context, list []named, byID bool, metadata map[string][]byte) (ocispecs.Descriptor, digest.Digest, error) {
	var manifests []ocispecs.Descriptor
	var config digest.Digest
	for _, one := range list {
		manifest, digest, err := i.manifest(ctx, one, exptypes.ParseKey(metadata, exptypes.ExporterImageConfigKey, &one.Platform))
		if err != nil {
			return manifest, "", err
		}
		if byID || i.e.Provenance != nil {
			manifest.Platform = &one.Platform.Platform
		}
		manifests, config = append(manifests, manifest), digest
	}
	top := manifests[0]
	if i.e.Provenance != nil {
		attestations, err := i.attest(list, manifests)
		if err != nil {
			return top, "", err
		}
		manifests = append(manifests, attestations...)
	}
	if len(manifests) > 1 || byID {
		index := ocispecs.Index{Versioned: specs.Versioned{SchemaVersion: 2}, MediaType: i.e.image.types.index, Manifests: manifests}
		index.Annotations = annotated(i.annotations, exptypes.AnnotationIndex, nil)
		all, b, err := described(index.MediaType, index)
		if err != nil {
			return all, "", err
		}
		top, config = all, ""
		top.Annotations = annotated(i.annotations, exptypes.AnnotationIndexDescriptor, nil)
		i.blobs = append([]blob{b}, i.blobs...)
	}
	top.Annotations = with(top.Annotations, ocispecs.AnnotationCreated, i.e.when.UTC().Format(time.RFC3339))
	return top, config, nil
}

// with returns annotations with one more, unless they have it.
func with(all map[string]string, key, value string) map[string]string {
	out := map[string]string{key: value}
	maps.Copy(out, all)
	return out
}

// manifest adds the manifest, the configuration and the layers of a result. The first one's descriptor has the platform that the
// configuration names.
func (i *image) manifest(ctx context.Context, one named, given []byte) (ocispecs.Descriptor, digest.Digest, error) {
	none := ocispecs.Descriptor{}
	if count, err := layers(one, given); err != nil {
		return none, "", err
	} else if count > 1 && one.result.Layers == nil {
		i.watch.Warn(oneLayer(count))
	}
	m := ocispecs.Manifest{Versioned: specs.Versioned{SchemaVersion: 2}, MediaType: i.e.image.types.manifest, Layers: []ocispecs.Descriptor{}}
	m.Annotations = annotated(i.annotations, exptypes.AnnotationManifest, &one.Platform.Platform)
	parts, names, err := i.parts(ctx, one)
	if err != nil {
		return none, "", err
	}
	contents := []digest.Digest{}
	for _, p := range parts {
		m.Layers, contents = append(m.Layers, p.descriptor), append(contents, p.content)
	}
	data, err := configOf(given, one.Platform.Platform, contents, names, i.e.when, i.e.given != nil)
	if err != nil {
		return none, "", err
	}
	config, configBlob, err := described(i.e.image.types.config, data)
	if err != nil {
		return config, "", err
	}
	m.Config = config
	manifest, manifestBlob, err := described(m.MediaType, m)
	i.blobs = append(i.blobs, manifestBlob, configBlob)
	for _, p := range parts {
		i.blobs = append(i.blobs, p.blob)
	}
	i.saved = append(i.saved, i.dockerSaveOf(configBlob, m.Layers))
	manifest.Platform = platformIn(data)
	manifest.Annotations = annotated(i.annotations, exptypes.AnnotationManifestDescriptor, &one.Platform.Platform)
	return manifest, config.Digest, err
}

func platformIn(config map[string]any) *ocispecs.Platform {
	text := func(key string) string {
		value, _ := config[key].(string)
		return value
	}
	return &ocispecs.Platform{Architecture: text("architecture"), OS: text("os"), Variant: text("variant")}
}

// header returns the header of a file, in the one form that docs/FORMATS.md has ("Images").
func header(name string, mode, size int64, when time.Time) *tar.Header {
	return &tar.Header{Format: tar.FormatGNU, Typeflag: tar.TypeReg, Name: name, Mode: mode, Size: size, ModTime: when}
}

// add writes an entry into an archive.
func (f files) add(to *tar.Writer, e *tree.Entry) error {
	h := header(e.Path, int64(e.Mode), 0, f.when)
	h.Uid, h.Gid = int(e.UID), int(e.GID)
	if e.Path == "" {
		h.Name = "."
	}
	if e.Dir {
		h.Typeflag, h.Name = tar.TypeDir, h.Name+"/"
		return to.WriteHeader(h)
	}
	content, err := f.result.Contents.Content(e.Content)
	if err != nil {
		return err
	}
	if content.Link != "" {
		h.Typeflag, h.Linkname, h.Mode = tar.TypeSymlink, content.Link, 0o777
		return to.WriteHeader(h)
	}
	h.Size = content.Size
	return addFile(to, h, content.Reader(0, -1))
}

func addFile(to *tar.Writer, h *tar.Header, from io.Reader) error {
	if err := to.WriteHeader(h); err != nil {
		return err
	}
	_, err := io.Copy(to, from)
	return err
}

// described returns the descriptor of a value, and its blob.
func described(media string, value any) (ocispecs.Descriptor, blob, error) {
	data, err := json.Marshal(value)
	if err != nil {
		return ocispecs.Descriptor{}, blob{}, err
	}
	b := blob{digest: digest.FromBytes(data), size: int64(len(data)), open: func() io.Reader { return bytes.NewReader(data) }}
	return ocispecs.Descriptor{MediaType: media, Digest: b.digest, Size: b.size}, b, nil
}

// index returns the index of the archive, which has the image once for each of its names.
func (i *image) index(top ocispecs.Descriptor) ocispecs.Index {
	index := ocispecs.Index{Versioned: specs.Versioned{SchemaVersion: 2}, MediaType: ocispecs.MediaTypeImageIndex}
	for _, name := range i.names {
		one := top
		one.Annotations = maps.Clone(top.Annotations)
		one.Annotations[images.AnnotationImageName] = name
		one.Annotations[ocispecs.AnnotationRefName] = tagOf(name)
		index.Manifests = append(index.Manifests, one)
	}
	if len(i.names) == 0 {
		index.Manifests = append(index.Manifests, top)
	}
	return index
}

// A dockerSave is what `docker save` writes of an image, and `docker load` reads.
type dockerSave struct {
	Config   string
	RepoTags []string
	Layers   []string
}

func (i *image) dockerSaveOf(config blob, layers []ocispecs.Descriptor) dockerSave {
	one := dockerSave{Config: pathOf(config.digest), Layers: []string{}}
	for _, layer := range layers {
		one.Layers = append(one.Layers, pathOf(layer.Digest))
	}
	for _, name := range i.names {
		if named, err := reference.ParseNormalizedNamed(name); err == nil {
			one.RepoTags = append(one.RepoTags, reference.FamiliarString(named))
		}
	}
	return one
}

// pathOf returns where a blob is in a layout.
func pathOf(d digest.Digest) string { return path.Join("blobs", d.Algorithm().String(), d.Encoded()) }

// write writes the archive: the index, the layout's version, and each blob once.
func (i *image) write(to io.Writer, top ocispecs.Descriptor) error {
	archive := tar.NewWriter(to)
	add := func(name string, size int64, from io.Reader) error {
		return addFile(archive, header(name, 0o644, size, i.e.when), from)
	}
	files := []struct {
		name  string
		value any
	}{{"index.json", i.index(top)}, {ocispecs.ImageLayoutFile, ocispecs.ImageLayout{Version: ocispecs.ImageLayoutVersion}}}
	if i.e.Kind == "docker" {
		files = append(files, struct {
			name  string
			value any
		}{"manifest.json", i.saved})
	}
	for _, file := range files {
		data, err := json.Marshal(file.value)
		if err != nil {
			return err
		}
		if err := add(file.name, int64(len(data)), bytes.NewReader(data)); err != nil {
			return err
		}
	}
	written := map[digest.Digest]bool{}
	for _, b := range i.blobs {
		if written[b.digest] {
			continue
		}
		written[b.digest] = true
		if err := add(pathOf(b.digest), b.size, b.open()); err != nil {
			return err
		}
	}
	return archive.Close()
}

// tagOf returns the tag or the digest in an image's name.
func tagOf(name string) string {
	if spec, err := containerd.Parse(name); err == nil {
		return spec.Object
	}
	return name
}
