package exports

import (
	"github.com/containerd/containerd/platforms"
	"github.com/moby/buildkit/exporter/containerimage/exptypes"
	ocispecs "github.com/opencontainers/image-spec/specs-go/v1"
	"google.golang.org/grpc/codes"
	"google.golang.org/grpc/status"
)

// An annotation is one that a client or a frontend asks for: of an index, of a manifest, or of the descriptor of either.
type annotation struct {
	exptypes.AnnotationKey
	value string
}

// annotationsIn adds the annotations in the metadata of a frontend to those of the client, which come last.
func annotationsIn(metadata map[string][]byte, own []annotation) ([]annotation, error) {
	var all []annotation
	for key, value := range metadata {
		parsed, ok, err := exptypes.ParseAnnotationKey(key)
		if err != nil {
			return nil, status.Error(codes.InvalidArgument, err.Error())
		}
		if ok {
			all = append(all, annotation{parsed, string(value)})
		}
	}
	return append(all, own...), nil
}

// annotated returns the annotations of a kind: those of all platforms, and then those of this one. Without any it is nil.
func annotated(all []annotation, kind string, platform *ocispecs.Platform) map[string]string {
	var out map[string]string
	for _, isOfOne := range []bool{false, true} {
		for _, one := range all {
			fits := one.Platform == nil || platform != nil && platforms.Format(*one.Platform) == platforms.Format(*platform)
			if one.Type != kind || !fits || (one.Platform != nil) != isOfOne {
				continue
			}
			if out == nil {
				out = map[string]string{}
			}
			out[one.Key] = one.value
		}
	}
	return out
}

// checkAnnotations refuses annotations of an index that there is not, and of platforms that no result has.
func checkAnnotations(all []annotation, list []named, byID bool) error {
	for _, one := range all {
		isOfIndex := one.Type == exptypes.AnnotationIndex || one.Type == exptypes.AnnotationIndexDescriptor
		if isOfIndex && !byID {
			return status.Error(codes.InvalidArgument, "index annotations not supported for single platform export")
		}
		found := one.Platform == nil
		for _, result := range list {
			found = found || platforms.Format(*one.Platform) == platforms.Format(result.Platform.Platform)
		}
		if !found {
			return status.Errorf(codes.InvalidArgument, "invalid annotation: no platform %s found in source", one.PlatformString())
		}
	}
	return nil
}
