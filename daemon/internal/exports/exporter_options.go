package exports

import (
	"fmt"
	"slices"
	"strconv"
	"strings"

	"github.com/containerd/containerd/images"
	"github.com/distribution/reference"
	"github.com/moby/buildkit/exporter/containerimage/exptypes"
	ocispecs "github.com/opencontainers/image-spec/specs-go/v1"
	"google.golang.org/grpc/codes"
	"google.golang.org/grpc/status"
)

// mediaTypes are those of the parts of an image.
type mediaTypes struct{ layer, packedLayer, zstdLayer, config, manifest, index string }

var (
	ociTypes = mediaTypes{
		ocispecs.MediaTypeImageLayer, ocispecs.MediaTypeImageLayerGzip, ocispecs.MediaTypeImageLayerZstd, ocispecs.MediaTypeImageConfig,
		ocispecs.MediaTypeImageManifest, ocispecs.MediaTypeImageIndex,
	}
	dockerTypes = mediaTypes{
		images.MediaTypeDockerSchema2Layer, images.MediaTypeDockerSchema2LayerGzip, ocispecs.MediaTypeImageLayerZstd,
		images.MediaTypeDockerSchema2Config, images.MediaTypeDockerSchema2Manifest, images.MediaTypeDockerSchema2ManifestList,
	}
)

// layerOf returns the type of a layer that is packed in some form.
func (m mediaTypes) layerOf(form string) string {
	return map[string]string{"uncompressed": m.layer, "zstd": m.zstdLayer, "gzip": m.packedLayer}[form]
}

// imageOptions are those of the exporters oci and docker.
type imageOptions struct {
	kind        string
	name        string // several names with commas between, or `*` for what the frontend calls the image
	types       mediaTypes
	packing     packing
	isFolder    bool // whether the layout is written into a folder, and not as an archive
	annotations []annotation
}

// forms are those in which layers are packed.
var forms = []string{"gzip", "zstd", "uncompressed"}

// set reads an option. What can't be done is refused by name.
func (o *imageOptions) set(key, value string) (err error) {
	switch key {
	case "name":
		o.name = value
		_, err = o.names(nil)
		return err
	case "oci-mediatypes":
		isOCI, err := o.boolean(key, value, true)
		if o.types = dockerTypes; isOCI {
			o.types = ociTypes
		}
		return err
	case "tar":
		isTar, err := o.boolean(key, value, true)
		o.isFolder = !isTar
		return err
	case "compression":
		if value == "" {
			value = "gzip"
		}
		if o.packing.form = value; !slices.Contains(forms, value) {
			return o.unknown(key, value)
		}
		return nil
	case "compression-level":
		o.packing.level, err = levelOf(o.kind, value)
		return err
	case "force-compression", "rewrite-timestamp": // all is packed anew, and all has the one time, whatever is asked for
		_, err = o.boolean(key, value, false)
		return err
	}
	if parsed, ok, err := exptypes.ParseAnnotationKey(key); ok {
		if err != nil {
			return status.Errorf(codes.InvalidArgument, "exporter %s: %s: %v", o.kind, key, err)
		}
		o.annotations = append(o.annotations, annotation{parsed, value})
		return nil
	}
	return o.unknown(key, value)
}

func (o *imageOptions) unknown(key, value string) error {
	return status.Errorf(codes.Unimplemented, "exporter %s: the option %s=%s", o.kind, key, value)
}

// check refuses options that do not go together. What only OCI's types have lets the image be of these.
func (o *imageOptions) check() error {
	if o.isFolder && o.kind == "docker" {
		return status.Error(codes.InvalidArgument, "exporter docker: the option tar=false is of oci alone")
	}
	if o.packing.form == "zstd" || len(o.annotations) > 0 {
		o.types = ociTypes
	}
	return o.packing.check(o.kind)
}

func (o *imageOptions) boolean(key, value string, otherwise bool) (bool, error) {
	if value == "" {
		return otherwise, nil
	}
	found, err := strconv.ParseBool(value)
	if err != nil {
		err = status.Errorf(codes.InvalidArgument, "exporter %s: non-bool value specified for %s: %v", o.kind, key, err)
	}
	return found, err
}

// names returns the names of an image as BuildKit has them: with a registry and a tag.
func (o *imageOptions) names(metadata map[string][]byte) ([]string, error) {
	text := o.name
	if text == "*" {
		text = string(metadata["image.name"])
	}
	if text == "" {
		return nil, nil
	}
	var out []string
	for _, name := range strings.Split(text, ",") {
		parsed, err := reference.ParseNormalizedNamed(name)
		if err != nil {
			return nil, status.Errorf(codes.InvalidArgument, "exporter %s: failed to parse %s: %v", o.kind, name, err)
		}
		out = append(out, reference.TagNameOnly(parsed).String())
	}
	return out, nil
}

// layers returns how many layers BuildKit's image could have: one for each step that its history has, or else for each op.
func layers(one named, given []byte) (int, error) {
	config, err := configIn(given)
	if err != nil {
		return 0, err
	}
	steps, err := stepsIn(config)
	if err != nil || len(steps) == 0 {
		return one.result.Ops(), err
	}
	count := 0
	for _, step := range steps {
		if empty, _ := step["empty_layer"].(bool); !empty {
			count++
		}
	}
	return count, nil
}

// oneLayer is a warning of an image for which BuildKit would make several layers.
func oneLayer(count int) string {
	return fmt.Sprintf("the image has one layer, where BuildKit makes up to %d: one for each step that changes files", count)
}
