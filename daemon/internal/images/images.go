// Package images reads images as sources: from folders and archives that the daemon was given, and from OCI layouts of clients. A
// registry is never asked.
package images

import (
	"bytes"
	"context"
	"encoding/json"
	"errors"
	"fmt"
	"io"

	"github.com/containerd/containerd/content"
	"github.com/containerd/containerd/errdefs"
	containerd "github.com/containerd/containerd/images"
	"github.com/containerd/containerd/platforms"
	"github.com/moby/buildkit/util/imageutil"
	digest "github.com/opencontainers/go-digest"
	ocispecs "github.com/opencontainers/image-spec/specs-go/v1"
	"google.golang.org/grpc/codes"
	"google.golang.org/grpc/status"
	"llbm/daemon/internal/messages"
)

// mostOfJSON bounds the bytes of an index, a manifest or a configuration, and mostLayers the layers of an image.
const mostOfJSON = 4 << 20

var mostLayers = 1000

// An Image is one for a platform: what its reference names, and where its layers are.
type Image struct {
	Name     string        // for a person
	Digest   digest.Digest // what the reference names: an index or a manifest; nothing for a directory
	Manifest digest.Digest // the manifest of the platform; nothing for a directory
	Config   []byte
	layers   []ocispecs.Descriptor
	contents []digest.Digest // of the unpacked layers
	blobs    content.Provider
	root     string // the directory, if it is none of layers
	close    func() error
}

// Key tells the trees of images apart, within a build.
func (i *Image) Key() string {
	if i.root != "" {
		return "directory " + i.root
	}
	return i.Manifest.String()
}

// Close closes the files that the image is in.
func (i *Image) Close() {
	if i.close != nil {
		_ = i.close()
	}
}

// refuse returns an error of an image.
func refuse(name string, code codes.Code, format string, words ...any) error {
	return status.Error(code, messages.Text(fmt.Sprintf("image %s: %s", name, fmt.Sprintf(format, words...))))
}

// wrapped returns an error of an image with the code that it has.
func wrapped(name string, err error) error { return wrappedAs("image "+name, err) }

// wrappedAs says of what an error is, with the code that it has.
func wrappedAs(what string, err error) error {
	code := status.Code(err)
	if found := status.FromContextError(err); found.Code() != codes.Unknown {
		code = found.Code()
	}
	if errdefs.IsNotFound(err) {
		code = codes.NotFound
	}
	if code == codes.Unknown {
		code = codes.InvalidArgument
	}
	return status.Error(code, messages.Text(fmt.Sprintf("%s: %s", what, messages.Of(err))))
}

// read reads the image for a platform that a descriptor names.
func read(ctx context.Context, name string, blobs content.Provider, top ocispecs.Descriptor, platform ocispecs.Platform) (*Image, error) {
	blobs = &bounded{blobs}
	if top.MediaType == "" {
		data, err := content.ReadBlob(ctx, blobs, top)
		if err == nil {
			top.MediaType, err = imageutil.DetectManifestBlobMediaType(data)
		}
		if err != nil {
			return nil, wrapped(name, err)
		}
	}
	seen := &lastManifest{Provider: blobs}
	manifest, err := containerd.Manifest(ctx, seen, top, platforms.Only(platform))
	if err != nil {
		return nil, wrapped(name, err)
	}
	if len(manifest.Layers) > mostLayers {
		return nil, refuse(name, codes.ResourceExhausted, "it has %d layers, and at most %d are read", len(manifest.Layers), mostLayers)
	}
	image := &Image{Name: name, Digest: top.Digest, Manifest: seen.manifest, layers: manifest.Layers, blobs: blobs}
	if image.Config, err = content.ReadBlob(ctx, blobs, manifest.Config); err != nil {
		return nil, wrapped(name, err)
	}
	return image, image.checkConfig()
}

// checkConfig reads the digests of the unpacked layers in the configuration.
func (i *Image) checkConfig() error {
	var config ocispecs.Image
	if err := json.Unmarshal(i.Config, &config); err != nil {
		return refuse(i.Name, codes.InvalidArgument, "its configuration: %v", err)
	}
	if i.contents = config.RootFS.DiffIDs; len(i.contents) != len(i.layers) {
		return refuse(i.Name, codes.InvalidArgument, "%d layers, and %d in its configuration", len(i.layers), len(i.contents))
	}
	for _, one := range i.contents {
		if err := one.Validate(); err != nil {
			return refuse(i.Name, codes.InvalidArgument, "its configuration: %v", err)
		}
	}
	return nil
}

// lastManifest notes which manifest was read last: the one that is chosen by its platform.
type lastManifest struct {
	content.Provider
	manifest digest.Digest
}

func (l *lastManifest) ReaderAt(ctx context.Context, desc ocispecs.Descriptor) (content.ReaderAt, error) {
	if containerd.IsManifestType(desc.MediaType) {
		l.manifest = desc.Digest
	}
	return l.Provider.ReaderAt(ctx, desc)
}

// bounded reads blobs of JSON: at most some bytes, which have to have their digest.
type bounded struct{ content.Provider }

func (b *bounded) ReaderAt(ctx context.Context, desc ocispecs.Descriptor) (content.ReaderAt, error) {
	if err := desc.Digest.Validate(); err != nil {
		return nil, err
	}
	if desc.Size > mostOfJSON {
		return nil, status.Errorf(codes.ResourceExhausted, "%s has %d bytes, and at most %d are read", desc.Digest, desc.Size, mostOfJSON)
	}
	from, err := b.Provider.ReaderAt(ctx, desc)
	if err != nil {
		return nil, err
	}
	defer from.Close()
	if desc.Size > 0 && from.Size() != desc.Size {
		return nil, fmt.Errorf("%s has %d bytes, not %d", desc.Digest, from.Size(), desc.Size)
	}
	data, err := io.ReadAll(io.LimitReader(content.NewReader(from), mostOfJSON+1))
	switch {
	case err != nil:
		return nil, err
	case len(data) > mostOfJSON:
		return nil, status.Errorf(codes.ResourceExhausted, "%s has more than %d bytes", desc.Digest, mostOfJSON)
	case desc.Digest.Algorithm().FromBytes(data) != desc.Digest:
		return nil, fmt.Errorf("the digest is not %s", desc.Digest)
	}
	return inMemory{bytes.NewReader(data)}, nil
}

type inMemory struct{ *bytes.Reader }

func (inMemory) Close() error { return nil }

// layer opens a layer, whose bytes are checked as they are read: their number, and their digest.
func (i *Image) layer(ctx context.Context, desc ocispecs.Descriptor) (io.ReadCloser, error) {
	if err := desc.Digest.Validate(); err != nil {
		return nil, err
	}
	from, err := i.blobs.(*bounded).Provider.ReaderAt(ctx, desc)
	if err != nil {
		return nil, err
	}
	if from.Size() != desc.Size {
		_ = from.Close()
		return nil, fmt.Errorf("%s has %d bytes, not %d", desc.Digest, from.Size(), desc.Size)
	}
	return &verified{Reader: content.NewReader(from), Closer: from, digester: desc.Digest.Verifier(), digest: desc.Digest}, nil
}

// verified fails at the end of what is read if it has another digest.
type verified struct {
	io.Reader
	io.Closer
	digester digest.Verifier
	digest   digest.Digest
}

func (v *verified) Read(data []byte) (int, error) {
	n, err := v.Reader.Read(data)
	_, _ = v.digester.Write(data[:n])
	if errors.Is(err, io.EOF) && !v.digester.Verified() {
		err = fmt.Errorf("the digest is not %s", v.digest)
	}
	return n, err
}
