package exports

import (
	"archive/tar"
	"bytes"
	"context"
	"encoding/json"
	"fmt"
	"io"
	"math/rand"
	"os"
	"os/exec"
	"path/filepath"
	"strconv"
	"strings"
	"testing"
	"time"

	controlapi "github.com/moby/buildkit/api/services/control"
	"github.com/moby/buildkit/exporter/containerimage/exptypes"
	digest "github.com/opencontainers/go-digest"
	ocispecs "github.com/opencontainers/image-spec/specs-go/v1"
	"llbm/daemon/internal/contents"
	"llbm/daemon/internal/results"
	"llbm/daemon/internal/tree"
)

// python writes for each image of a list in JSON the archive that llbm-tools build writes, into a folder by its number.
const python = `
import io, json, os, sys
from llbm_tools.images import oci_layout
from llbm_tools.trees import tar_of_tree
for number, one in enumerate(json.load(sys.stdin)):
    layer = io.BytesIO()
    tar_of_tree.write(io.BytesIO(one["Tree"].encode()), layer, int(one["Time"] or 0))
    with open(os.path.join(sys.argv[1], str(number)), "wb") as output:
        config = oci_layout.config_in(one["Config"].encode(), "config")
        oci_layout.write(layer, output, config, int(one["Time"] or 0), one["Time"] != "")
`

// headers prints for each header of a list in JSON its blocks, in hexadecimal, as the tools write them.
const headers = `
import json, sys, tarfile
from llbm_tools.images import archive_writing
for one in json.load(sys.stdin):
    header = tarfile.TarInfo(one["Name"].rstrip("/"))
    header.type = tarfile.DIRTYPE if one["Name"].endswith("/") else tarfile.REGTYPE
    header.mode, header.uid, header.gid, header.size, header.mtime = (one[key] for key in ("Mode", "Uid", "Gid", "Size", "Time"))
    if one["Target"]:
        header.type, header.linkname = tarfile.SYMTYPE, one["Target"]
    print(archive_writing.blocks_of(header).hex())
`

// values prints each value of a list in JSON in the form of llbm-tools build, a line each, as a text of JSON.
const values = `
import json, sys
from llbm_tools.images import oci_layout
for text in json.load(sys.stdin):
    print(json.dumps(oci_layout.config_json(json.loads(text)).decode()))
`

// byTools runs a program of Python with the repository's tools, or skips the test, and returns what it prints.
func byTools(t *testing.T, program string, given any, words ...string) []byte {
	t.Helper()
	working, err := os.Getwd()
	if err == nil {
		working, err = filepath.EvalSymlinks(working) // it may be below a link
	}
	if err != nil {
		t.Fatal(err)
	}
	folder := filepath.Join(working, "../../../tools")
	if _, err := os.Stat(filepath.Join(folder, "llbm_tools/images/oci_layout.py")); err != nil {
		t.Skip("the repository's tools are not there")
	}
	in, err := json.Marshal(given)
	if err != nil {
		t.Fatal(err)
	}
	interpreter, err := exec.LookPath("python3")
	if err != nil {
		t.Skip("python3 is not there")
	}
	cmd := exec.Command(interpreter, append([]string{"-c", program}, words...)...)
	cmd.Env = append(os.Environ(), "PYTHONPATH="+folder, "PYTHONDONTWRITEBYTECODE=1")
	cmd.Stdin, cmd.Stderr = bytes.NewReader(in), os.Stderr
	out, err := cmd.Output()
	if err != nil {
		t.Fatal(err)
	}
	return out
}

// A given is what an image is made of. Without a time none is asked for.
type given struct {
	Tree   string
	Config string
	Time   string
}

// image writes the image of a tree without compression.
func (g given) image(t *testing.T, attrs map[string]string) []byte {
	t.Helper()
	store, err := contents.New(t.TempDir(), 1<<30)
	if err != nil {
		t.Fatal(err)
	}
	attrs["compression"], attrs["source-date-epoch"] = "uncompressed", g.Time
	e, err := New(0, &controlapi.Exporter{Type: "oci", Attrs: attrs}, store)
	if err != nil {
		t.Fatal(err)
	}
	result := &results.Result{}
	for _, line := range strings.Split(strings.TrimSuffix(g.Tree, "\n"), "\n") {
		entry, err := tree.ParseLine([]byte(line))
		if err != nil {
			t.Fatal(err)
		}
		result.Tree = append(result.Tree, entry)
	}
	metadata := map[string][]byte{exptypes.ExporterImageConfigKey: []byte(g.Config)}
	list, byID, err := (&Results{Single: result, Metadata: metadata}).list()
	if err != nil {
		t.Fatal(err)
	}
	moved := 0
	i := &image{e: e, watch: Watch{Moved: func() { moved++ }, Warn: func(string) {}}}
	defer i.close()
	top, _, err := i.add(context.Background(), list, byID, metadata)
	if err != nil {
		t.Fatal(err)
	}
	if moved < len(result.Tree) {
		t.Errorf("a layer of %d entries moved %d times", len(result.Tree), moved)
	}
	var out bytes.Buffer
	if err := i.write(&out, top); err != nil {
		t.Fatal(err)
	}
	return out.Bytes()
}

const root = "d 0755 0 0 /\n"

// odd are trees with names, modes, owners and sizes that have to be written in several ways.
func odd() []string {
	long, deep := strings.Repeat("n", 255), strings.Repeat("d", 60)
	hundred := strings.Repeat("h", 99)
	large := strings.Repeat("61", 3<<20)
	return []string{
		root,
		"d 0700 7 8 /\n",
		root + "f 0644 0 0 - /empty\n",
		root + "f 4755 1 2 6869 /a b\nf 0000 2097151 2097152 00ff /ü\nd 7777 4294967295 0 /漢\nf 0640 0 3000000 0a /漢/😀\n",
		root + "d 1755 0 0 /" + deep + "\nd 0755 0 0 /" + deep + "/" + deep + "\nf 0644 0 0 61 /" + deep + "/" + deep + "/f\n",
		root + "f 0644 0 0 - /" + hundred + "\nf 0644 0 0 - /" + hundred + "h\nf 0644 0 0 - /" + hundred + "hh\nd 0755 0 0 /" + hundred + "i\n",
		root + "f 0644 0 0 61 /" + long + "\nf 0644 0 0 61 /" + strings.Repeat("ß", 127) + "\n",
		root + "f 0644 0 0 " + large + " /large\nf 0644 0 0 " + strings.Repeat("00", 512) + " /one\nf 0644 0 0 " + strings.Repeat("01", 513) + " /two\n",
		root + "f 0644 0 0 61 /\"quoted\"\nf 0644 0 0 61 /*\nf 0644 0 0 61 /.hidden\nf 0644 0 0 61 /a=b\nf 0644 0 0 61 /back\\slash\n",
		root + "d 0755 0 0 /.wh\nf 0644 0 0 61 /.wh/a.wh.b\n",
	}
}

// configurations are those that frontends return, and odder ones.
var configurations = []string{
	`{}`,
	`{"config": {"Env": ["PATH=/bin", "A=<&>\u2028é\u0001\t"], "Cmd": ["/a"], "Labels": null, "Volumes": {}}, "author": null}`,
	`{"architecture": "arm64", "os": "linux", "variant": "v8", "created": "2001-01-01T00:00:00.5Z", "rootfs": null}`,
	`{"architecture": "arm", "os": "linux", "history": [], "config": {"Healthcheck": {"Interval": 30000000000, "a.x": [1, -1, 12345678901234567890123]}}}`,
	`{"created": "2030-01-01T00:00:00Z", "history": [{"created_by": "COPY"}, {"created_by": "ENV", "empty_layer": true, "comment": null}]}`,
	`{"history": [{"created": "2002-02-02T02:02:02+02:00", "created_by": "COPY"}, {"created_by": "COPY b"}, {"empty_layer": false}]}`,
	`{"history": [{"created": "2040-02-02T02:02:02Z", "empty_layer": true}], "created": null, "config": null}`,
	`{"z.org": {"b": [true, false, null, {"y": 1, "x": "\ud83d\ude00"}], "a": ""}, "os.version": "1", "os.features": ["b", "a"]}`,
	`{"rootfs": {"type": "other"}, "moby.buildkit.buildinfo.v1": "x"}`,
}

func TestImagesAreThoseOfTheTools(t *testing.T) {
	var all []given
	for _, text := range odd() {
		all = append(all, given{text, "{}", ""}, given{text, `{"created": "2020-01-01T00:00:00Z"}`, "1445412480"})
	}
	for _, config := range configurations {
		for _, time := range []string{"", "0", "1445412480", "8589934591"} {
			all = append(all, given{root + "f 0644 0 0 61 /a\n", config, time})
		}
	}
	folder := t.TempDir()
	byTools(t, python, all, folder)
	for n, one := range all {
		want, err := os.ReadFile(filepath.Join(folder, strconv.Itoa(n)))
		if err != nil {
			t.Fatal(err)
		}
		if got := one.image(t, map[string]string{}); !bytes.Equal(got, want) {
			at := 0
			for at < min(len(got), len(want)) && got[at] == want[at] {
				at++
			}
			at = max(0, at-100)
			t.Errorf("image %d, %.200q %s %s: %d bytes, and %d by the tools; from byte %d on\n%.300q\n%.300q",
				n, one.Tree, one.Config, one.Time, len(got), len(want), at, got[at:], want[at:])
		}
	}
}

// A head is what an archive says of an entry.
type head struct {
	Name                       string
	Mode, Uid, Gid, Size, Time int64
	Target                     string // of a symbolic link
}

// heads are headers of names and numbers about the bounds of their fields, with slashes where long names are cut off.
func heads() []head {
	random := rand.New(rand.NewSource(1))
	numbers := []int64{0, 1, 1<<21 - 1, 1 << 21, 1<<32 - 1, 1<<33 - 1, 1 << 33, 9 << 30, 1 << 40}
	pick := func() int64 { return numbers[random.Intn(len(numbers))] }
	var all []head
	for n := range 400 {
		name := strings.Repeat("a", random.Intn(120)) + strings.Repeat("é", random.Intn(2)*random.Intn(60)) + "b"
		one := head{name, int64(random.Intn(0o10000)), pick(), pick(), pick(), pick(), ""}
		if n%2 == 0 {
			one.Name, one.Size = name+"/", 0
		}
		all = append(all, one)
	}
	for before := 96; before < 104; before++ {
		name := strings.Repeat("d", before) + "/" + strings.Repeat("n", 255)
		all = append(all, head{name, 0o644, 0, 0, 0, 0, ""}, head{name + "/", 0o755, 0, 0, 0, 0, ""})
		for _, end := range []string{"", "/", "//", "/t", "//t"} {
			for _, name := range []string{"l", name} {
				all = append(all, head{name, 0o777, 0, 0, 0, 0, strings.Repeat("t", before) + end})
			}
		}
	}
	return all
}

func TestHeadersAreThoseOfTheTools(t *testing.T) {
	all := heads()
	lines := strings.Fields(string(byTools(t, headers, all)))
	for n, one := range all {
		h := header(one.Name, one.Mode, one.Size, time.Unix(one.Time, 0))
		h.Uid, h.Gid = int(one.Uid), int(one.Gid)
		if strings.HasSuffix(one.Name, "/") {
			h.Typeflag = tar.TypeDir
		}
		if h.Linkname = one.Target; one.Target != "" {
			h.Typeflag = tar.TypeSymlink
		}
		var out bytes.Buffer
		if err := tar.NewWriter(&out).WriteHeader(h); err != nil {
			t.Fatal(err)
		}
		if got := fmt.Sprintf("%x", out.Bytes()); got != lines[n] {
			t.Errorf("%+v: %s, and %s by the tools", one, got, lines[n])
		}
	}
}

func TestValuesAreWrittenAsByTheTools(t *testing.T) {
	all := []string{
		`"\u0000\u001f\u007f\u0080\u2028\u2029\b\f\n\r\t\"\\\/<>&'é😀"`, `[]`, `{}`, `[null,true,false]`, `{"b":{"ä":1,"z":2,"Z":3},"a":[[],{}]}`,
		`[0,1,-1,9007199254740993,123456789012345678901234567890]`, `{"a":1,"a":2}`, `{"<b>":"a&&b"}`,
	}
	var want []string
	for _, line := range strings.Split(strings.TrimSpace(string(byTools(t, values, all))), "\n") {
		var text string
		if err := json.Unmarshal([]byte(line), &text); err != nil {
			t.Fatal(err)
		}
		want = append(want, text)
	}
	for n, text := range all {
		value, err := decoded([]byte(text))
		if err != nil {
			t.Fatal(err)
		}
		if got, err := json.Marshal(value); err != nil || string(got) != want[n] {
			t.Errorf("%s: %s %v, and %s by the tools", text, got, err, want[n])
		}
	}
	for _, text := range []string{`1 2`, `{`, ``} {
		if _, err := decoded([]byte(text)); err == nil {
			t.Errorf("%s was taken", text)
		}
	}
}

func TestANameThatRemovesIsRefused(t *testing.T) {
	e := &Exporter{}
	result := &results.Result{Tree: tree.Tree{{Dir: true, Mode: 0o755}, {Path: "d", Dir: true}, {Path: "d/.wh.f"}}}
	whole, _ := layersOf(result)
	err := writeLayer(context.Background(), files{result, e.when, func() {}}, whole[0].Changes, new(bytes.Buffer))
	if err == nil || !strings.Contains(err.Error(), "can't have a name that begins with .wh.: /d/.wh.f") {
		t.Error(err)
	}
}

func TestABlobOfTwoPlatformsIsWrittenOnce(t *testing.T) {
	text := []byte("x")
	one := blob{digest: digest.FromBytes(text), size: 1, open: func() io.Reader { return bytes.NewReader(text) }}
	i := &image{e: &Exporter{}, blobs: []blob{one, one}}
	var out bytes.Buffer
	if err := i.write(&out, ocispecs.Descriptor{}); err != nil || bytes.Count(out.Bytes(), []byte("blobs/sha256/")) != 1 || out.Len()%512 != 0 {
		t.Error(out.Len(), err)
	}
}
