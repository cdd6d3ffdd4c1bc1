package images

import (
	"archive/tar"
	"context"
	"fmt"
	"io/fs"
	"math/rand"
	"os"
	"path/filepath"
	"strings"
	"testing"
	"time"

	"github.com/containerd/containerd/content"
	digest "github.com/opencontainers/go-digest"
	ocispecs "github.com/opencontainers/image-spec/specs-go/v1"
	"google.golang.org/grpc/codes"
	"google.golang.org/grpc/status"
	"llbm/daemon/internal/contents"
	"llbm/daemon/internal/sources"
)

func TestLayersAreLaidOneOverAnother(t *testing.T) {
	for name, c := range map[string]struct {
		layers [][]entry
		want   string
	}{
		"a file over a file": {
			[][]entry{{{name: "a", text: "1"}}, {{name: "./a", text: "2", mode: 0o4600, uid: 7}}},
			"f 4600 7 0 32 /a\n",
		},
		"a directory over a directory keeps what is below": {
			[][]entry{{{name: "d/", mode: 0o700}, {name: "d/a"}}, {{name: "d/", mode: 0o711}, {name: "d/b"}}},
			"d 0711 0 0 /d\nf 0755 0 0 - /d/a\nf 0755 0 0 - /d/b\n",
		},
		"a file over a directory": {
			[][]entry{{{name: "d/"}, {name: "d/a"}}, {{name: "d", text: "f"}}},
			"f 0755 0 0 66 /d\n",
		},
		"a whiteout removes what a lower layer has": {
			[][]entry{{{name: "d/"}, {name: "d/a"}, {name: "b"}}, {{name: ".wh.d"}, {name: ".wh.b"}, {name: ".wh.none"}}},
			"",
		},
		"a whiteout keeps what its own layer has": {
			[][]entry{{{name: "d/a"}}, {{name: "d/b"}, {name: ".wh.d"}}},
			"d 0755 0 0 /d\nf 0755 0 0 - /d/b\n",
		},
		"an opaque directory": {
			[][]entry{{{name: "d/a"}, {name: "d/e/b"}}, {{name: "d/e/c"}, {name: "d/.wh..wh..opq"}}},
			"d 0755 0 0 /d\nd 0755 0 0 /d/e\nf 0755 0 0 - /d/e/c\n",
		},
		"notes of a file system": {
			[][]entry{{{name: ".wh..wh.plnk/a"}, {name: ".wh..wh.aufs"}, {name: "a"}}},
			"f 0755 0 0 - /a\n",
		},
		"a hard link": {
			[][]entry{{{name: "z", text: "1", mode: 0o640}}, {{name: "b", link: "z", kind: tar.TypeLink}, {name: "z", text: "2"}}},
			"f 0640 0 0 31 /b\nf 0755 0 0 32 /z\n",
		},
		"the root": {
			[][]entry{{{name: "./", mode: 0o700, uid: 3}}, {{name: "a"}}},
			"f 0755 0 0 - /a\n",
		},
	} {
		m := newLayout(t)
		var layers [][]byte
		for _, one := range c.layers {
			layers = append(layers, layerOf(t, one...))
		}
		m.add(t, gzipped, nil, layers...)
		got, err := textAt(t, m.folder, sources.Options{})
		if _, below, _ := strings.Cut(got, "\n"); err != nil || below != c.want {
			t.Errorf("%s: %s%v", name, got, err)
		}
	}
}

func TestWhatALayerRemovesOfItsOwnIsKnown(t *testing.T) {
	m := newLayout(t)
	lower := []entry{{name: "a"}, {name: "b/c"}, {name: "d"}}
	m.add(t, gzipped, nil, layerOf(t, lower...), layerOf(t, entry{name: "a"}, entry{name: ".wh.a"}, entry{name: "b/e"}, entry{name: "b/.wh.c"},
		entry{name: ".wh.b"}, entry{name: ".wh.d"}, entry{name: "d"}))
	image, err := catalog(t, m.folder).Find(context.Background(), "base", amd64)
	if err != nil {
		t.Fatal(err)
	}
	defer image.Close()
	store, err := contents.New(t.TempDir(), 1<<30)
	if err != nil {
		t.Fatal(err)
	}
	manifest, err := image.Read(context.Background(), store, sources.Options{})
	if err != nil {
		t.Fatal(err)
	}
	defer manifest.Drop()
	if got := fmt.Sprint(manifest.Removed); got != "[/a /b]" {
		t.Error(got)
	}
}

func TestALayerIsPackedAsItSaysItself(t *testing.T) {
	for name, pack := range map[string]func(testing.TB, []byte) []byte{"gzip": gzipped, "plain": plain, "zstd": zstandard} {
		m := newLayout(t)
		m.add(t, pack, nil, layerOf(t, entry{name: "a", text: name}))
		got, err := textAt(t, m.folder, sources.Options{})
		if err != nil || !strings.HasSuffix(got, fmt.Sprintf("f 0755 0 0 %x /a\n", name)) {
			t.Errorf("%s: %s%v", name, got, err)
		}
	}
}

// madeAtRandom returns the entries of a layer on few names, so that layers meet. Links are left out: a tree of the tools has none.
func madeAtRandom(r *rand.Rand) []entry {
	names := []string{"a", "b", "c", "d"}
	var out []entry
	for range 1 + r.Intn(8) {
		var path []string
		for range 1 + r.Intn(3) {
			path = append(path, names[r.Intn(len(names))])
		}
		name := strings.Join(path, "/")
		folder := strings.Join(path[:len(path)-1], "/")
		switch r.Intn(14) {
		case 0:
			out = append(out, entry{name: filepath.Join(folder, ".wh."+path[len(path)-1])})
		case 1:
			out = append(out, entry{name: filepath.Join(folder, ".wh..wh..opq")})
		case 2, 3:
			out = append(out, entry{name: name + "/", mode: int64(0o700 + r.Intn(64))})
		case 4:
			out = append(out, entry{name: name, link: strings.Join(path[:1], "/"), kind: tar.TypeLink})
		default:
			out = append(out, entry{name: name, text: fmt.Sprint(r.Intn(100)), mode: int64(0o600 + r.Intn(64)), uid: r.Intn(3)})
		}
	}
	return out
}

// All images that the daemon takes have the tree of the tools. It refuses a hard link to nothing, which they leave out.
func TestTreesOfImagesAreThoseOfTheTools(t *testing.T) {
	r := rand.New(rand.NewSource(1))
	var places []string
	for range 60 {
		m := newLayout(t)
		var layers [][]byte
		for range 1 + r.Intn(3) {
			layers = append(layers, layerOf(t, madeAtRandom(r)...))
		}
		m.add(t, gzipped, nil, layers...)
		places = append(places, m.folder)
	}
	same := 0
	for i, want := range byTool(t, places) {
		got, err := textAt(t, places[i], sources.Options{})
		switch {
		case err == nil && (want == nil || got != *want):
			t.Errorf("%s\nand by the tool %v", got, want)
		case err == nil:
			same++
		case want != nil && !strings.Contains(err.Error(), "which is no file that is there"):
			t.Errorf("%v, and by the tool %s", err, *want)
		}
	}
	if same < 10 {
		t.Errorf("only %d images were compared", same)
	}
}

func TestWhatAnImageMayNotHaveIsRefused(t *testing.T) {
	one := entry{name: "a", text: "1"}
	for want, entries := range map[string][]entry{
		`image base: layer 1: "../a" is no path of a tree`:                          {{name: "../a"}},
		"image base: layer 1: a file with entries below it: /a":                     {one, {name: "a/b"}},
		"image base: layer 1: the root of a layer is no directory":                  {{name: ".", kind: tar.TypeReg}},
		`image base: layer 1: "b" is a link to "c", which is no file that is there`: {{name: "b", link: "c", kind: tar.TypeLink}},
		"image base: dev is a special file":                                         {{name: "dev", kind: tar.TypeChar}},
		"image base: layer 1: too many links or names on the way: /l":               {{name: "l", link: "l", kind: tar.TypeSymlink}, {name: "l/a"}},
	} {
		m := newLayout(t)
		m.add(t, gzipped, nil, layerOf(t, entries...))
		if got, err := textAt(t, m.folder, sources.Options{}); err == nil || !strings.Contains(status.Convert(err).Message(), want) {
			t.Errorf("%v %s, not %s", err, got, want)
		}
	}
}

func TestBlobsAreCheckedAgainstTheirDigests(t *testing.T) {
	layer := layerOf(t, entry{name: "a", text: strings.Repeat("1", 3000)})
	for name, c := range map[string]struct {
		spoil func(m *made, top ocispecs.Descriptor)
		want  string
	}{
		"a manifest": {func(m *made, top ocispecs.Descriptor) { m.flip(t, top.Digest) }, "the digest is not sha256:"},
		"a layer":    {func(m *made, _ ocispecs.Descriptor) { m.flip(t, digest.FromBytes(layer)) }, "the digest is not sha256:"},
		"no layer": {func(m *made, _ ocispecs.Descriptor) {
			_ = os.Remove(filepath.Join(m.folder, "blobs/sha256", digest.FromBytes(layer).Encoded()))
		}, "it has no sha256:"},
	} {
		m := newLayout(t)
		top := m.add(t, plain, nil, layer)
		c.spoil(m, top)
		if _, err := textAt(t, m.folder, sources.Options{}); err == nil || !strings.Contains(err.Error(), c.want) {
			t.Errorf("%s: %v", name, err)
		}
	}
	m := newLayout(t)
	m.add(t, func(t testing.TB, _ []byte) []byte { return layerOf(t, entry{name: "b"}) }, nil, layer)
	if _, err := textAt(t, m.folder, sources.Options{}); err == nil || !strings.Contains(err.Error(), "it does not unpack to what the configuration says") {
		t.Error(err)
	}
}

// flip changes the last byte of a blob that is no padding.
func (m *made) flip(t *testing.T, d digest.Digest) {
	t.Helper()
	path := filepath.Join(m.folder, "blobs/sha256", d.Encoded())
	data, err := os.ReadFile(path)
	if err != nil {
		t.Fatal(err)
	}
	place := strings.LastIndexAny(string(data), "1}")
	data[place]++
	if err := os.WriteFile(path, data, 0o644); err != nil {
		t.Fatal(err)
	}
}

func TestAnImageIsFoundByNameDigestAndPlatform(t *testing.T) {
	m := newLayout(t)
	arm := ocispecs.Platform{OS: "linux", Architecture: "arm64"}
	first := m.add(t, plain, &amd64, layerOf(t, entry{name: "amd"}))
	second := m.add(t, plain, &arm, layerOf(t, entry{name: "arm"}))
	index := m.json(t, ocispecs.MediaTypeImageIndex, m.index)
	m.index.Manifests = []ocispecs.Descriptor{index}
	m.save(t)
	c := catalog(t, m.folder)
	for name, want := range map[string]digest.Digest{
		"base": index.Digest, "docker.io/library/base:latest": index.Digest, "base@" + second.Digest.String(): second.Digest,
		"base:latest@" + index.Digest.String(): index.Digest,
	} {
		image, err := c.Find(context.Background(), name, amd64)
		if err != nil || image.Digest != want {
			t.Errorf("%s: %+v %v", name, image, err)
			continue
		}
		image.Close()
	}
	for platform, want := range map[string]digest.Digest{"amd64": first.Digest, "arm64": second.Digest} {
		image, err := c.Find(context.Background(), "base", ocispecs.Platform{OS: "linux", Architecture: platform})
		if err != nil || image.Manifest != want {
			t.Errorf("%s: %+v %v", platform, image, err)
			continue
		}
		image.Close()
	}
	if image, err := c.Find(context.Background(), "other", amd64); image != nil || err != nil {
		t.Error(image, err)
	}
	_, err := c.Find(context.Background(), "base", ocispecs.Platform{OS: "linux", Architecture: "s390x"})
	if status.Code(err) != codes.NotFound || !strings.Contains(err.Error(), "no match for platform") {
		t.Error(err)
	}
	_, err = c.Find(context.Background(), "base@"+digest.FromString("x").String(), amd64)
	if status.Code(err) != codes.NotFound {
		t.Error(err)
	}
}

func TestAFolderHasImagesByTheirNames(t *testing.T) {
	folder := t.TempDir()
	for _, name := range []string{"alpine:latest", "alpine:3.19", "gcr.io/distroless/static:nonroot"} {
		if err := os.MkdirAll(filepath.Join(folder, name), 0o755); err != nil {
			t.Fatal(err)
		}
		if err := os.WriteFile(filepath.Join(folder, name, "name"), []byte(name), 0o644); err != nil {
			t.Fatal(err)
		}
	}
	m := newLayout(t)
	m.add(t, plain, nil, layerOf(t, entry{name: "name", text: "busybox"}))
	packLayout(t, m.folder, filepath.Join(folder, "busybox:1.tar"))
	c := &Catalog{}
	if err := (Folders{c}).Set(folder); err != nil {
		t.Fatal(err)
	}
	for name, is := range map[string]bool{
		"alpine": true, "docker.io/library/alpine": true, "alpine:3.19": true, "gcr.io/distroless/static:nonroot": true, "busybox:1": true,
		"alpine:3.18": false, "gcr.io/distroless/static": false, "gcr.io/distroless": false, "busybox": false,
	} {
		image, err := c.Find(context.Background(), name, amd64)
		if err != nil || (image != nil) != is {
			t.Errorf("%s: %v %v", name, image, err)
		}
		if image != nil {
			image.Close()
		}
	}
}

// packLayout writes a folder as an archive.
func packLayout(t *testing.T, folder, to string) {
	t.Helper()
	var entries []entry
	err := filepath.WalkDir(folder, func(path string, found fs.DirEntry, err error) error {
		if err != nil || found.IsDir() {
			return err
		}
		data, err := os.ReadFile(path)
		name, _ := filepath.Rel(folder, path)
		entries = append(entries, entry{name: name, text: string(data)})
		return err
	})
	if err == nil {
		err = os.WriteFile(to, layerOf(t, entries...), 0o644)
	}
	if err != nil {
		t.Fatal(err)
	}
}

func TestADirectoryIsAnImage(t *testing.T) {
	folder := filepath.Join(t.TempDir(), "root")
	if err := os.MkdirAll(filepath.Join(folder, "etc"), 0o750); err != nil {
		t.Fatal(err)
	}
	if err := os.WriteFile(filepath.Join(folder, "etc/passwd"), []byte("x"), 0o604); err != nil {
		t.Fatal(err)
	}
	if err := os.Chmod(filepath.Join(folder, "etc"), 0o750); err != nil {
		t.Fatal(err)
	}
	want := "d 0755 0 0 /\nd 0750 0 0 /etc\nf 0604 0 0 78 /etc/passwd\n"
	if got, err := textAt(t, folder, sources.Options{}); err != nil || got != want {
		t.Error(got, err)
	}
	image, err := catalog(t, folder).Find(context.Background(), "base", amd64)
	if err != nil || image.Digest != "" || !strings.Contains(string(image.Config), `"diff_ids":["sha256:`) {
		t.Errorf("%s %v", image.Config, err)
	}
	if err := os.WriteFile(folder+".json", []byte(`{"config":{"WorkingDir":"/w"}}`), 0o644); err != nil {
		t.Fatal(err)
	}
	if image, err = catalog(t, folder).Find(context.Background(), "base", amd64); err != nil || !strings.Contains(string(image.Config), `"WorkingDir":"/w"`) {
		t.Errorf("%s %v", image.Config, err)
	}
}

func TestTheBoundsOfAnImage(t *testing.T) {
	before := mostUnpacked
	defer func(layers int) { mostUnpacked, mostLayers = before, layers }(mostLayers)
	mostUnpacked, mostLayers = 100_000, 3
	m := newLayout(t)
	m.add(t, gzipped, nil, layerOf(t, entry{name: "a", text: strings.Repeat("\x00", 200_000)}))
	_, err := textAt(t, m.folder, sources.Options{})
	if status.Code(err) != codes.ResourceExhausted || !strings.Contains(err.Error(), "more than 100000 bytes of layers") {
		t.Error(err)
	}
	held := 0
	mostUnpacked = before
	_, err = textAt(t, m.folder, sources.Options{Hold: func(n int) error {
		if held += n; held > 1000 {
			return status.Error(codes.ResourceExhausted, "no more")
		}
		return nil
	}})
	if status.Code(err) != codes.ResourceExhausted {
		t.Error(err)
	}
	archive := filepath.Join(t.TempDir(), "a.tar")
	packLayout(t, m.folder, archive)
	inOne := mostInArchive
	mostInArchive = 2
	if _, err := textAt(t, archive, sources.Options{}); err == nil || !strings.Contains(err.Error(), "it has more than 2 files") {
		t.Error(err)
	}
	mostInArchive = inOne
	m = newLayout(t)
	layers := make([][]byte, mostLayers+1)
	for i := range layers {
		layers[i] = layerOf(t)
	}
	m.add(t, plain, nil, layers...)
	if _, err := textAt(t, m.folder, sources.Options{}); status.Code(err) != codes.ResourceExhausted || !strings.Contains(err.Error(), "4 layers") {
		t.Error(err)
	}
	big := m.blob(t, ocispecs.MediaTypeImageManifest, make([]byte, mostOfJSON+1))
	m.index.Manifests = []ocispecs.Descriptor{big}
	m.save(t)
	_, err = textAt(t, m.folder, sources.Options{})
	if status.Code(err) != codes.ResourceExhausted || !strings.Contains(err.Error(), "and at most 4194304 are read") {
		t.Error(err)
	}
}

// A silent store is one of a client that does not answer.
type silent struct{}

func (silent) Info(ctx context.Context, _ digest.Digest) (content.Info, error) {
	<-ctx.Done()
	return content.Info{}, ctx.Err()
}

func (silent) ReaderAt(ctx context.Context, _ ocispecs.Descriptor) (content.ReaderAt, error) {
	return blocked{ctx}, nil
}

type blocked struct{ context.Context }

func (b blocked) ReadAt([]byte, int64) (int, error) {
	<-b.Done()
	return 0, b.Err()
}
func (blocked) Close() error { return nil }
func (blocked) Size() int64  { return 1 }

func TestAClientThatSendsNothingIsGivenUp(t *testing.T) {
	store := Watched(silent{}, time.Millisecond)
	_, err := store.Info(t.Context(), "")
	if status.Code(err) != codes.DeadlineExceeded || !strings.Contains(err.Error(), "the client sent nothing for 1ms") {
		t.Error(err)
	}
	from, err := store.ReaderAt(t.Context(), ocispecs.Descriptor{})
	if err != nil {
		t.Fatal(err)
	}
	if _, err := from.ReadAt(nil, 0); status.Code(err) != codes.DeadlineExceeded {
		t.Error(err)
	}
	if err := from.Close(); err != nil {
		t.Error(err)
	}
}
