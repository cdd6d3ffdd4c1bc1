package server

import (
	"encoding/json"
	"os"
	"path/filepath"
	"strings"
	"testing"

	"github.com/moby/buildkit/client"
	"github.com/moby/buildkit/client/llb"
	ocispecs "github.com/opencontainers/image-spec/specs-go/v1"
	"google.golang.org/grpc/codes"
	"google.golang.org/grpc/status"
)

func TestProvenanceIsExported(t *testing.T) {
	d := started(t, nil)
	def := marshal(t, llb.Scratch().File(llb.Mkfile("/a", 0o644, []byte("hi"))))
	for value, isMax := range map[string]bool{"mode=min": false, "mode=max": true, "": false} {
		var archive, image buffer
		o := client.SolveOpt{
			FrontendAttrs: map[string]string{"attest:provenance": value},
			Exports:       []client.ExportEntry{toTar("tar", &archive, nil), toTar("oci", &image, map[string]string{"name": "a"})},
		}
		if _, err := d.Solve(t.Context(), def, o, nil); err != nil {
			t.Fatal(err)
		}
		got := listed(t, archive.Bytes())
		if !strings.Contains(got, "0600 0:0 provenance.json") || strings.Contains(got, "llbDefinition") != isMax ||
			!strings.Contains(got, `\"name\":\"a\",\"digest\":{\"sha256\":\"8f434346648f6b96df89dda901c5176b10a6d83961dd3c1ac88b59b2dc327aa4\"}`) {
			t.Error(got)
		}
		folder := unpackedLayout(t, image.Bytes())
		var top, index ocispecs.Index
		read(t, folder, "index.json", &top)
		read(t, folder, "blobs/sha256/"+top.Manifests[0].Digest.Encoded(), &index)
		if len(index.Manifests) != 2 || index.Manifests[1].Annotations["vnd.docker.reference.digest"] != index.Manifests[0].Digest.String() {
			t.Errorf("%+v", index)
		}
		// The image is one to read all the same.
		again := withImages(t, "again="+folder)
		if got, err := again.solved(t, llb.Merge([]llb.State{llb.Image("again"), llb.Scratch()}), client.SolveOpt{}); err != nil || got != "0644 0:0 a \"hi\"\n" {
			t.Errorf("%s%v", got, err)
		}
	}
}

// read reads a file of JSON.
func read(t *testing.T, folder, name string, to any) {
	t.Helper()
	data, err := os.ReadFile(filepath.Join(folder, name))
	if err == nil {
		err = json.Unmarshal(data, to)
	}
	if err != nil {
		t.Fatal(err)
	}
}

func TestOtherAttestationsAreRefused(t *testing.T) {
	d := started(t, nil)
	state := llb.Scratch().File(llb.Mkfile("/a", 0o644, nil))
	for attr, want := range map[string]codes.Code{
		"attest:sbom=": codes.Unimplemented, "build-arg:BUILDKIT_ATTEST_SBOM=generator=x": codes.Unimplemented, "attest:provenance=mode=all": codes.InvalidArgument,
		"attest:provenance=mode=min,inline-only=true": codes.OK, "attest:provenance=disabled=true": codes.OK,
	} {
		key, value, _ := strings.Cut(attr, "=")
		got, err := d.solved(t, state, client.SolveOpt{FrontendAttrs: map[string]string{key: value}})
		if status.Code(unwrapped(err)) != want || err == nil && got != "0644 0:0 a \"\"\n" {
			t.Errorf("%s: %s%v", attr, got, err)
		}
	}
}
