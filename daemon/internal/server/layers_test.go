package server

import (
	"archive/tar"
	"bytes"
	"compress/gzip"
	"errors"
	"io"
	"os"
	"path/filepath"
	"strings"
	"testing"

	"github.com/moby/buildkit/client"
	"github.com/moby/buildkit/client/llb"
	ocispecs "github.com/opencontainers/image-spec/specs-go/v1"
)

// layersOf builds an image, and returns the names of each layer's entries, the history, and the warnings.
func (d *daemon) layersOf(t *testing.T, state llb.State, o client.SolveOpt) ([]string, []string, string) {
	t.Helper()
	var archive buffer
	o.Exports = []client.ExportEntry{toTar("oci", &archive, nil)}
	warnings, err := d.warnings(t, state, o)
	if err != nil {
		t.Fatal(err)
	}
	folder := unpackedLayout(t, archive.Bytes())
	var index ocispecs.Index
	var manifest ocispecs.Manifest
	var config ocispecs.Image
	read(t, folder, "index.json", &index)
	read(t, folder, "blobs/sha256/"+index.Manifests[0].Digest.Encoded(), &manifest)
	read(t, folder, "blobs/sha256/"+manifest.Config.Digest.Encoded(), &config)
	var layers, history []string
	for _, layer := range manifest.Layers {
		data, err := os.ReadFile(filepath.Join(folder, "blobs/sha256", layer.Digest.Encoded()))
		if err != nil {
			t.Fatal(err)
		}
		layers = append(layers, namesIn(t, data))
	}
	for _, one := range config.History {
		history = append(history, one.CreatedBy)
	}
	if len(config.RootFS.DiffIDs) != len(layers) {
		t.Errorf("%d layers, and %d in the configuration", len(layers), len(config.RootFS.DiffIDs))
	}
	return layers, history, warnings
}

// namesIn returns the names of the entries of a layer that is packed by gzip.
func namesIn(t *testing.T, data []byte) string {
	t.Helper()
	z, err := gzip.NewReader(bytes.NewReader(data))
	if err != nil {
		t.Fatal(err)
	}
	var names []string
	for r := tar.NewReader(z); ; {
		h, err := r.Next()
		if errors.Is(err, io.EOF) {
			return strings.Join(names, " ")
		}
		if err != nil {
			t.Fatal(err)
		}
		names = append(names, h.Name)
	}
}

func TestAnImageHasTheLayersOfBuildKitIfTheyAreAskedFor(t *testing.T) {
	d := started(t, nil)
	named := llb.WithCustomName
	base := llb.Scratch().File(llb.Mkdir("/d", 0o755).Mkfile("/d/a", 0o644, []byte("1")), named("one"))
	copied := llb.Scratch().File(llb.Mkfile("/b", 0o644, nil), named("two"))
	merged := llb.Merge([]llb.State{base, copied})
	state := merged.Run(llb.Args([]string{"/bin/sh", "-c", "write /d/c x && rm /d/a"}), llb.Dir("/"), named("three")).Root().
		File(llb.Mkdir("/d", 0o755, llb.WithParents(true)), named("nothing")).File(llb.Rm("/b"), named("four"))
	asked := client.SolveOpt{FrontendAttrs: map[string]string{"llbm:layers": "true"}}
	layers, history, warnings := d.layersOf(t, state, asked)
	if got := strings.Join(layers, "; "); got != "d/ d/a; b; d/ d/.wh.a d/c; ; .wh.b" {
		t.Error(got)
	}
	if got := strings.Join(history, " "); got != "one two three nothing four" || strings.Contains(warnings, "layer") {
		t.Error(got, warnings)
	}
	if layers, history, _ = d.layersOf(t, llb.Scratch(), asked); len(layers)+len(history) > 0 {
		t.Error(layers, history)
	}
	layers, _, warnings = d.layersOf(t, state, client.SolveOpt{})
	if len(layers) != 1 || !strings.Contains(warnings, "the image has one layer, where BuildKit makes up to 5") {
		t.Error(layers, warnings)
	}
}

func TestLayersOfAnImageMakeItsTree(t *testing.T) {
	d := started(t, nil)
	archive, _ := baseImage(t, d)
	folder := unpackedLayout(t, archive)
	d = withImages(t, "base="+folder)
	state := llb.Image("base").File(llb.Mkfile("/etc/b", 0o600, nil)).File(llb.Rm("/etc/a"))
	var made buffer
	o := client.SolveOpt{FrontendAttrs: map[string]string{"llbm:layers": "1"}, Exports: []client.ExportEntry{toTar("oci", &made, nil)}}
	if _, err := d.Solve(t.Context(), marshal(t, state), o, nil); err != nil {
		t.Fatal(err)
	}
	again := withImages(t, "again="+unpackedLayout(t, made.Bytes()))
	got, err := again.solved(t, llb.Merge([]llb.State{llb.Image("again"), llb.Scratch()}), client.SolveOpt{})
	if want := "0750 0:0 etc/ \"\"\n0600 0:0 etc/b \"\"\n"; err != nil || got != want {
		t.Errorf("%s%v", got, err)
	}
}
