package exports

import (
	"archive/tar"
	"context"
	"io"
	"path"
	"strings"

	digest "github.com/opencontainers/go-digest"
	ocispecs "github.com/opencontainers/image-spec/specs-go/v1"
	"google.golang.org/grpc/codes"
	"google.golang.org/grpc/status"
	"llbm/daemon/internal/results"
	"llbm/daemon/internal/tree"
)

// whiteout begins the name of an entry of a layer that removes what it names.
const whiteout = ".wh."

// A part is a layer in the store: its descriptor, its bytes, and the digest of what it unpacks to.
type part struct {
	descriptor ocispecs.Descriptor
	blob       blob
	content    digest.Digest
}

// layersOf returns the layers of a result, and the names of what made them: those that were asked for, or one without a name.
func layersOf(r *results.Result) (layers []results.Layer, names []string) {
	if r.Layers == nil {
		whole := make([]tree.Change, len(r.Tree))
		for n := range r.Tree {
			whole[n].Entry = r.Tree[n]
		}
		return []results.Layer{{Changes: whole}}, nil
	}
	names = []string{}
	for _, one := range r.Layers {
		names = append(names, one.Name)
	}
	return r.Layers, names
}

// parts writes the layers of a result into the store, and returns them with the names of what made them.
func (i *image) parts(ctx context.Context, one named) ([]part, []string, error) {
	layers, names := layersOf(one.result)
	var out []part
	for _, layer := range layers {
		p, err := i.part(ctx, files{one.result, i.e.when, i.watch.Moved}, layer.Changes)
		if err != nil {
			return nil, nil, err
		}
		out = append(out, p)
	}
	return out, names, nil
}

// part writes a layer into the store.
func (i *image) part(ctx context.Context, all files, changes []tree.Change) (part, error) {
	if i.pack == nil {
		var err error
		if i.pack, err = i.e.store.NewPack(); err != nil {
			return part{}, err
		}
	}
	before := i.pack.All().Size
	packed, plain := digest.Canonical.Digester(), digest.Canonical.Digester()
	out, err := i.e.image.packing.writer(io.MultiWriter(i.pack, packed.Hash()))
	if err != nil {
		return part{}, err
	}
	err = writeLayer(ctx, all, changes, io.MultiWriter(moving{out, i.watch.Moved}, plain.Hash()))
	if closed := out.Close(); err == nil {
		err = closed
	}
	if err != nil {
		return part{}, err
	}
	stored := i.pack.All()
	b := blob{digest: packed.Digest(), size: stored.Size - before}
	b.open = func() io.Reader { return io.NewSectionReader(stored, before, b.size) }
	media := i.e.image.types.layerOf(i.e.image.packing.form)
	return part{ocispecs.Descriptor{MediaType: media, Digest: b.digest, Size: b.size}, b, plain.Digest()}, nil
}

// writeLayer writes changes as the plain archive of a layer.
func writeLayer(ctx context.Context, all files, changes []tree.Change, to io.Writer) error {
	archive := tar.NewWriter(to)
	for n := range changes {
		one := &changes[n]
		if err := ctx.Err(); err != nil {
			return err
		}
		if strings.HasPrefix(path.Base(one.Path), whiteout) {
			return status.Errorf(codes.InvalidArgument, "a layer of an image can't have a name that begins with %s: /%s", whiteout, one.Path)
		}
		add := all.add
		if one.Removed {
			add = all.remove
		}
		if err := add(archive, &one.Entry); err != nil {
			return err
		}
	}
	return archive.Close()
}

// remove writes into an archive that a path is removed.
func (f files) remove(to *tar.Writer, e *tree.Entry) error {
	f.moved()
	folder, name := path.Split(e.Path)
	return to.WriteHeader(header(folder+whiteout+name, 0, 0, f.when))
}
