package images

import (
	"archive/tar"
	"bytes"
	"compress/gzip"
	"context"
	"encoding/json"
	"os"
	"os/exec"
	"path/filepath"
	"testing"

	"github.com/klauspost/compress/zstd"
	digest "github.com/opencontainers/go-digest"
	"github.com/opencontainers/image-spec/specs-go"
	ocispecs "github.com/opencontainers/image-spec/specs-go/v1"
	"llbm/daemon/internal/contents"
	"llbm/daemon/internal/sources"
)

// amd64 is the platform of the images of tests.
var amd64 = ocispecs.Platform{OS: "linux", Architecture: "amd64"}

// An entry is one of a layer: a name that ends with a slash is a directory's; a link has a target, and is hard or symbolic.
type entry struct {
	name, text, link string
	kind             byte
	mode             int64
	uid              int
}

// layerOf returns the archive of a layer.
func layerOf(t testing.TB, entries ...entry) []byte {
	t.Helper()
	var out bytes.Buffer
	w := tar.NewWriter(&out)
	for _, one := range entries {
		h := &tar.Header{Name: one.name, Typeflag: one.kind, Mode: one.mode, Uid: one.uid, Size: int64(len(one.text)), Linkname: one.link}
		switch {
		case one.kind != 0:
		case one.name[len(one.name)-1] == '/':
			h.Typeflag = tar.TypeDir
		default:
			h.Typeflag = tar.TypeReg
		}
		if h.Mode == 0 {
			h.Mode = 0o755
		}
		if err := w.WriteHeader(h); err != nil {
			t.Fatal(err)
		}
		if _, err := w.Write([]byte(one.text)); err != nil {
			t.Fatal(err)
		}
	}
	if err := w.Close(); err != nil {
		t.Fatal(err)
	}
	return out.Bytes()
}

// A made is an image that a test makes in a layout.
type made struct {
	folder string
	index  ocispecs.Index
}

func newLayout(t testing.TB) *made {
	t.Helper()
	m := &made{folder: t.TempDir(), index: ocispecs.Index{Versioned: specs.Versioned{SchemaVersion: 2}, MediaType: ocispecs.MediaTypeImageIndex}}
	if err := os.MkdirAll(filepath.Join(m.folder, "blobs/sha256"), 0o755); err != nil {
		t.Fatal(err)
	}
	m.write(t, ocispecs.ImageLayoutFile, []byte(`{"imageLayoutVersion":"1.0.0"}`))
	return m
}

func (m *made) write(t testing.TB, name string, data []byte) {
	t.Helper()
	if err := os.WriteFile(filepath.Join(m.folder, name), data, 0o644); err != nil {
		t.Fatal(err)
	}
}

func (m *made) blob(t testing.TB, media string, data []byte) ocispecs.Descriptor {
	t.Helper()
	d := ocispecs.Descriptor{MediaType: media, Digest: digest.FromBytes(data), Size: int64(len(data))}
	m.write(t, "blobs/sha256/"+d.Digest.Encoded(), data)
	return d
}

func (m *made) json(t testing.TB, media string, value any) ocispecs.Descriptor {
	t.Helper()
	data, err := json.Marshal(value)
	if err != nil {
		t.Fatal(err)
	}
	return m.blob(t, media, data)
}

// add adds an image to the layout's index; each layer is packed by a function.
func (m *made) add(t testing.TB, pack func(testing.TB, []byte) []byte, platform *ocispecs.Platform, layers ...[]byte) ocispecs.Descriptor {
	t.Helper()
	manifest := ocispecs.Manifest{Versioned: specs.Versioned{SchemaVersion: 2}, MediaType: ocispecs.MediaTypeImageManifest}
	config := ocispecs.Image{Platform: amd64, RootFS: ocispecs.RootFS{Type: "layers", DiffIDs: []digest.Digest{}}}
	config.Config.Env = []string{"FROM=image"}
	for _, layer := range layers {
		config.RootFS.DiffIDs = append(config.RootFS.DiffIDs, digest.FromBytes(layer))
		manifest.Layers = append(manifest.Layers, m.blob(t, ocispecs.MediaTypeImageLayerGzip, pack(t, layer)))
	}
	manifest.Config = m.json(t, ocispecs.MediaTypeImageConfig, config)
	one := m.json(t, ocispecs.MediaTypeImageManifest, manifest)
	one.Platform = platform
	m.index.Manifests = append(m.index.Manifests, one)
	m.save(t)
	return one
}

// save writes the index.
func (m *made) save(t testing.TB) {
	t.Helper()
	data, err := json.Marshal(m.index)
	if err != nil {
		t.Fatal(err)
	}
	m.write(t, ocispecs.ImageIndexFile, data)
}

func gzipped(t testing.TB, data []byte) []byte {
	t.Helper()
	var out bytes.Buffer
	w := gzip.NewWriter(&out)
	if _, err := w.Write(data); err != nil {
		t.Fatal(err)
	}
	if err := w.Close(); err != nil {
		t.Fatal(err)
	}
	return out.Bytes()
}

func plain(_ testing.TB, data []byte) []byte { return data }

func zstandard(t testing.TB, data []byte) []byte {
	t.Helper()
	w, err := zstd.NewWriter(nil)
	if err != nil {
		t.Fatal(err)
	}
	return w.EncodeAll(data, nil)
}

// catalog returns a catalog in which base is at a place.
func catalog(t testing.TB, place string) *Catalog {
	t.Helper()
	c := &Catalog{}
	if err := c.Set("base=" + place); err != nil {
		t.Fatal(err)
	}
	return c
}

// read returns the text of the tree of the image base at a place.
func textAt(t testing.TB, place string, options sources.Options) (string, error) {
	t.Helper()
	image, err := catalog(t, place).Find(context.Background(), "base", amd64)
	if err != nil {
		return "", err
	}
	defer image.Close()
	store, err := contents.New(t.TempDir(), 1<<30)
	if err != nil {
		t.Fatal(err)
	}
	manifest, err := image.Read(context.Background(), store, options)
	if err != nil {
		if used := store.Used(); used != 0 {
			t.Errorf("%d bytes are left in the store", used)
		}
		return "", err
	}
	defer manifest.Drop()
	var out bytes.Buffer
	if err := manifest.WriteByValue(&out, nil, false); err != nil {
		t.Fatal(err)
	}
	return out.String(), nil
}

// program prints the text of each image of a list in JSON, or null if the tools refuse it.
const program = `
import io, json, sys
from llbm_tools.images import unpacking
from llbm_tools.streams import Refused
from llbm_tools.trees import archive_texts
from llbm_tools.trees.left_out import LeftOut
texts = []
for place in json.load(sys.stdin):
    text = io.BytesIO()
    try:
        with unpacking.files_at(place) as files, unpacking.tree_of(files, None, None, lambda line: None) as entries:
            archive_texts.Text(entries, text, None, LeftOut()).write()
        texts.append(text.getvalue().decode())
    except Refused:
        texts.append(None)
print(json.dumps(texts))
`

// byTool returns the texts that llbm-tools tree from image writes of images, or nil for one that it refuses; it may skip the test.
func byTool(t testing.TB, places []string) []*string {
	t.Helper()
	working, err := os.Getwd()
	if err == nil {
		working, err = filepath.EvalSymlinks(working) // it may be below a link
	}
	if err != nil {
		t.Fatal(err)
	}
	tools := filepath.Join(working, "../../../tools")
	interpreter, err := exec.LookPath("python3")
	if _, missing := os.Stat(filepath.Join(tools, "llbm_tools/images/layers.py")); missing != nil || err != nil {
		t.Skip("the repository's tools are not there, or python3 is not")
	}
	in, err := json.Marshal(places)
	if err != nil {
		t.Fatal(err)
	}
	cmd := exec.Command(interpreter, "-c", program)
	cmd.Env = append(os.Environ(), "PYTHONPATH="+tools, "PYTHONDONTWRITEBYTECODE=1")
	var said bytes.Buffer
	cmd.Stdin, cmd.Stderr = bytes.NewReader(in), &said
	out, err := cmd.Output()
	var texts []*string
	if err == nil {
		err = json.Unmarshal(out, &texts)
	}
	if err != nil || len(texts) != len(places) {
		t.Fatal(err, said.String())
	}
	return texts
}
