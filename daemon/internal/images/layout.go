package images

import (
	"archive/tar"
	"context"
	"encoding/json"
	"errors"
	"fmt"
	"io"
	"io/fs"
	"os"
	"path"
	"slices"

	"github.com/containerd/containerd/content"
	"github.com/containerd/containerd/errdefs"
	containerd "github.com/containerd/containerd/images"
	"github.com/distribution/reference"
	digest "github.com/opencontainers/go-digest"
	ocispecs "github.com/opencontainers/image-spec/specs-go/v1"
)

// mostInArchive bounds the files of an archive with a layout.
var mostInArchive = 100_000

// A layout is an OCI layout: its index, and its blobs, in a folder or in an archive.
type layout struct {
	index ocispecs.Index
	open  func(name string) (section, error)
	close func() error
}

// A section is a file of a layout.
type section interface {
	io.ReaderAt
	io.Closer
	Size() int64
}

// isLayout is whether a folder is an OCI layout.
func isLayout(folder string) bool {
	for _, name := range []string{ocispecs.ImageLayoutFile, ocispecs.ImageIndexFile} {
		if found, err := os.Stat(path.Join(folder, name)); err != nil || !found.Mode().IsRegular() {
			return false
		}
	}
	return true
}

// inFolder reads the layout in a folder.
func inFolder(folder string) (*layout, error) {
	root, err := os.OpenRoot(folder)
	if err != nil {
		return nil, err
	}
	l := &layout{close: root.Close}
	l.open = func(name string) (section, error) {
		file, err := root.Open(name)
		if err != nil {
			return nil, err
		}
		found, err := file.Stat()
		if err == nil && !found.Mode().IsRegular() {
			err = &fs.PathError{Op: "open", Path: name, Err: errors.New("it is no file")}
		}
		if err != nil {
			_ = file.Close()
			return nil, err
		}
		return whole{file, found.Size()}, nil
	}
	return l, l.read()
}

// whole is a file with its size.
type whole struct {
	*os.File
	size int64
}

func (w whole) Size() int64 { return w.size }

// part is a file in an archive, which stays open.
type part struct{ *io.SectionReader }

func (part) Close() error { return nil }

// inArchive reads the layout in an archive that is not packed.
func inArchive(name string) (*layout, error) {
	file, err := os.Open(name)
	if err != nil {
		return nil, err
	}
	places := map[string]part{}
	for r := tar.NewReader(file); ; {
		h, err := r.Next()
		if errors.Is(err, io.EOF) {
			break
		}
		at := int64(0)
		if err == nil {
			at, err = file.Seek(0, io.SeekCurrent) // the reader is at the content, and has no buffer
		}
		if err == nil && len(places) == mostInArchive {
			err = fmt.Errorf("it has more than %d files", mostInArchive)
		}
		if err != nil {
			_ = file.Close()
			return nil, fmt.Errorf("no archive of an OCI layout: %w", err)
		}
		if h.Typeflag == tar.TypeReg {
			places[path.Clean(h.Name)] = part{io.NewSectionReader(file, at, h.Size)}
		}
	}
	l := &layout{close: file.Close, open: func(name string) (section, error) {
		if found, ok := places[name]; ok {
			return found, nil
		}
		return nil, &fs.PathError{Op: "open", Path: name, Err: fs.ErrNotExist}
	}}
	return l, l.read()
}

// read reads the layout's index, and closes the layout if it can't.
func (l *layout) read() error {
	file, err := l.open(ocispecs.ImageIndexFile)
	if err == nil {
		err = json.NewDecoder(io.NewSectionReader(file, 0, min(file.Size(), mostOfJSON))).Decode(&l.index)
		_ = file.Close()
	}
	if err != nil {
		_ = l.close()
		return fmt.Errorf("no OCI layout: %w", err)
	}
	return nil
}

// ReaderAt opens a blob.
func (l *layout) ReaderAt(_ context.Context, desc ocispecs.Descriptor) (content.ReaderAt, error) {
	file, err := l.open(path.Join("blobs", desc.Digest.Algorithm().String(), desc.Digest.Encoded()))
	if errors.Is(err, fs.ErrNotExist) {
		return nil, fmt.Errorf("it has no %s: %w", desc.Digest, errdefs.ErrNotFound)
	}
	return file, err
}

// find returns what the layout has for a reference: what has its digest, or else the image of its name, or its only one.
func (l *layout) find(ref reference.Named) (ocispecs.Descriptor, error) {
	if digested, ok := ref.(reference.Digested); ok {
		return l.withDigest(digested.Digest())
	}
	all := slices.DeleteFunc(slices.Clone(l.index.Manifests), func(d ocispecs.Descriptor) bool {
		return !containerd.IsManifestType(d.MediaType) && !containerd.IsIndexType(d.MediaType)
	})
	named := slices.DeleteFunc(slices.Clone(all), func(d ocispecs.Descriptor) bool { return !isNamed(d, ref) })
	if len(named) == 0 {
		named = all
	}
	for _, one := range named {
		if one.Digest != named[0].Digest {
			return one, fmt.Errorf("the layout has %d images, and none is the only one with this name", len(named))
		}
	}
	if len(named) == 0 {
		return ocispecs.Descriptor{}, errors.New("the layout has no image")
	}
	return named[0], nil
}

// withDigest returns the descriptor of a blob; its kind is not known if the index does not say it.
func (l *layout) withDigest(d digest.Digest) (ocispecs.Descriptor, error) {
	for _, one := range l.index.Manifests {
		if one.Digest == d {
			return one, nil
		}
	}
	file, err := l.ReaderAt(context.Background(), ocispecs.Descriptor{Digest: d})
	if err != nil {
		return ocispecs.Descriptor{}, err
	}
	defer file.Close()
	return ocispecs.Descriptor{Digest: d, Size: file.Size()}, nil
}

// isNamed is whether an entry of an index says that it is an image of this name, or that it has its tag.
func isNamed(d ocispecs.Descriptor, ref reference.Named) bool {
	if name := d.Annotations[containerd.AnnotationImageName]; name != "" {
		named, err := reference.ParseNormalizedNamed(name)
		return err == nil && reference.TagNameOnly(named).String() == ref.String()
	}
	tagged, ok := ref.(reference.Tagged)
	return ok && d.Annotations[ocispecs.AnnotationRefName] == tagged.Tag()
}
