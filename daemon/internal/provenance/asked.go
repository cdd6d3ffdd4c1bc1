package provenance

import (
	"encoding/csv"
	"strings"

	"github.com/moby/buildkit/solver/pb"
	ocispecs "github.com/opencontainers/image-spec/specs-go/v1"
	"google.golang.org/grpc/codes"
	"google.golang.org/grpc/status"
)

// Attestations are asked for by options of the frontend, or by build arguments.
const (
	attest         = "attest:"
	attestArgument = "build-arg:buildkit_attest_"
	ofProvenance   = "provenance"
)

// AskedBy returns what options of a frontend ask for of how results were made, or nil. Attestations that are for images alone, as buildx
// asks for them by itself, are left out, so that an image depends on nothing but what is in it.
func AskedBy(frontend string, given map[string]string, worker pb.Platform) (*Asked, error) {
	var asked *Asked
	for key, value := range given {
		kind, ok := strings.CutPrefix(strings.ToLower(key), attest)
		if !ok {
			if kind, ok = strings.CutPrefix(strings.ToLower(key), attestArgument); !ok {
				continue
			}
		}
		options, err := optionsIn(value)
		if err != nil {
			return nil, status.Errorf(codes.InvalidArgument, "attestation %s=%s: %v", key, value, err)
		}
		if options["inline-only"] == "true" || options["disabled"] == "true" || value == "false" {
			continue
		}
		mode := options["mode"]
		switch {
		case kind != ofProvenance:
			return nil, status.Errorf(codes.Unimplemented, "llbmd has no attestations but provenance: %s=%s", key, value)
		case mode != "" && mode != "min" && mode != "max":
			return nil, status.Errorf(codes.InvalidArgument, "attestation %s=%s: its mode is min or max", key, value)
		}
		asked = &Asked{
			Frontend: frontend, Options: given, IsMax: mode == "max",
			Worker: ocispecs.Platform{OS: worker.OS, Architecture: worker.Architecture, Variant: worker.Variant},
		}
	}
	return asked, nil
}

// optionsIn reads options with commas between them.
func optionsIn(text string) (map[string]string, error) {
	out := map[string]string{}
	if text == "" {
		return out, nil
	}
	words, err := csv.NewReader(strings.NewReader(text)).Read()
	if err != nil {
		return nil, err
	}
	for _, word := range words {
		key, value, _ := strings.Cut(word, "=")
		out[key] = value
	}
	return out, nil
}
