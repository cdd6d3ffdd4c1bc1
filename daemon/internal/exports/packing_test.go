package exports

import (
	"bytes"
	"context"
	"encoding/json"
	"io"
	"strings"
	"testing"

	"github.com/klauspost/compress/zstd"
	"github.com/moby/buildkit/exporter/containerimage/exptypes"
	ocispecs "github.com/opencontainers/image-spec/specs-go/v1"
	"llbm/daemon/internal/contents"
	"llbm/daemon/internal/results"
	"llbm/daemon/internal/tree"
)

// ofEmpty returns the image of the empty tree, or of it for two platforms, and what its manifests and its index are.
func ofEmpty(t *testing.T, e *Exporter, isOfTwo bool, metadata map[string][]byte) (*image, ocispecs.Descriptor, []ocispecs.Manifest, ocispecs.Index) {
	t.Helper()
	store, err := contents.New(t.TempDir(), 1<<30)
	if err != nil {
		t.Fatal(err)
	}
	e.store = store
	i := &image{e: e, watch: Watch{Moved: func() {}, Warn: func(string) {}}}
	t.Cleanup(i.close)
	var list []named
	for _, arch := range []string{"amd64", "arm64"} {
		one := named{result: &results.Result{Tree: tree.Empty()}}
		one.Platform = exptypes.Platform{ID: "linux/" + arch, Platform: ocispecs.Platform{OS: "linux", Architecture: arch}}
		list = append(list, one)
	}
	if !isOfTwo {
		list = list[:1]
	}
	if i.annotations, err = annotationsIn(metadata, e.image.annotations); err == nil {
		err = checkAnnotations(i.annotations, list, isOfTwo)
	}
	if err != nil {
		t.Fatal(err)
	}
	top, _, err := i.add(context.Background(), list, isOfTwo, metadata)
	if err != nil {
		t.Fatal(err)
	}
	var manifests []ocispecs.Manifest
	var index ocispecs.Index
	for _, b := range i.blobs {
		data, err := io.ReadAll(b.open())
		if err != nil {
			t.Fatal(err)
		}
		var m ocispecs.Manifest
		switch {
		case bytes.Contains(data, []byte(`"manifests"`)):
			err = json.Unmarshal(data, &index)
		case bytes.Contains(data, []byte(`"layers":[{`)):
			err = json.Unmarshal(data, &m)
			manifests = append(manifests, m)
		}
		if err != nil {
			t.Fatal(err)
		}
	}
	return i, top, manifests, index
}

func TestALayerCanBePackedByZstd(t *testing.T) {
	for _, level := range []string{"", "0", "19"} {
		attrs := map[string]string{"compression": "zstd", "oci-mediatypes": "false"}
		if level != "" {
			attrs["compression-level"] = level
		}
		e := asked(t, attrs)
		i, _, manifests, _ := ofEmpty(t, e, false, nil)
		if m := manifests[0]; m.MediaType != ocispecs.MediaTypeImageManifest || m.Layers[0].MediaType != ocispecs.MediaTypeImageLayerZstd {
			t.Errorf("%+v", m)
		}
		layer := i.blobs[len(i.blobs)-1]
		z, err := zstd.NewReader(layer.open())
		if err != nil {
			t.Fatal(err)
		}
		data, err := io.ReadAll(z)
		z.Close()
		if err != nil || !bytes.HasPrefix(data, []byte("./\x00")) {
			t.Errorf("%s: %q %v", level, data[:min(len(data), 8)], err)
		}
	}
}

func TestAnnotationsAreWhereTheyAreAskedFor(t *testing.T) {
	attrs := map[string]string{
		"annotation.a": "1", "annotation-manifest[linux/arm64].b": "2", "annotation-manifest-descriptor.c": "3", "annotation-index.d": "4",
		"annotation-index-descriptor.e": "5",
	}
	metadata := map[string][]byte{"annotation.a": []byte("of the frontend"), "annotation.f": []byte("6")}
	_, top, manifests, index := ofEmpty(t, asked(t, attrs), true, metadata)
	shown := func(all map[string]string) string {
		data, _ := json.Marshal(all)
		return string(data)
	}
	for got, want := range map[string]string{
		shown(top.Annotations):                   `{"e":"5","org.opencontainers.image.created":"1970-01-01T00:00:00Z"}`,
		shown(index.Annotations):                 `{"d":"4"}`,
		shown(index.Manifests[0].Annotations):    `{"c":"3"}`,
		shown(manifests[0].Annotations):          `{"a":"1","f":"6"}`,
		shown(manifests[1].Annotations) + " arm": `{"a":"1","b":"2","f":"6"} arm`,
	} {
		if got != want {
			t.Errorf("%s, not %s", got, want)
		}
	}
	for key, want := range map[string]string{
		"annotation-index.d":                 "index annotations not supported for single platform export",
		"annotation-manifest[linux/s390x].b": "invalid annotation: no platform linux/s390x found in source",
	} {
		err := checkAnnotations(asked(t, map[string]string{key: ""}).image.annotations, []named{{Platform: exptypes.Platform{Platform: unsaid}}}, false)
		if err == nil || !strings.Contains(err.Error(), want) {
			t.Error(err)
		}
	}
}

func TestDockerLoadsTheArchiveOfTheExporterDocker(t *testing.T) {
	e, err := New(0, exporterOf("docker", map[string]string{"name": "a:1,host:5000/b"}), nil)
	if err != nil {
		t.Fatal(err)
	}
	i, top, manifests, _ := ofEmpty(t, e, false, nil)
	if manifests[0].MediaType != dockerTypes.manifest {
		t.Error(manifests[0].MediaType)
	}
	i.names, _ = e.image.names(nil)
	i.saved = []dockerSave{i.dockerSaveOf(i.blobs[1], manifests[0].Layers)}
	var out bytes.Buffer
	if err := i.write(&out, top); err != nil {
		t.Fatal(err)
	}
	config, layer := manifests[0].Config.Digest.Encoded(), manifests[0].Layers[0].Digest.Encoded()
	want := `[{"Config":"blobs/sha256/` + config + `","RepoTags":["a:1","host:5000/b:latest"],"Layers":["blobs/sha256/` + layer + `"]}]`
	if !bytes.Contains(out.Bytes(), []byte(want)) {
		t.Errorf("no %s", want)
	}
}
