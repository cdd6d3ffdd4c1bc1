package server

import (
	"archive/tar"
	"bytes"
	"compress/gzip"
	"fmt"
	"io"
	"io/fs"
	"math/rand"
	"os"
	"path/filepath"
	"strings"
	"syscall"
	"testing"

	"github.com/docker/docker/pkg/archive"
	"github.com/klauspost/compress/zstd"
	"github.com/moby/buildkit/client"
	"github.com/moby/buildkit/client/llb"
	"github.com/ulikunitz/xz"
)

// tarOf returns an archive of headers; the content of a file is its name.
func tarOf(t testing.TB, all ...tar.Header) []byte {
	t.Helper()
	var made bytes.Buffer
	to := tar.NewWriter(&made)
	for _, h := range all {
		if h.Typeflag == tar.TypeReg {
			h.Size = int64(len(h.Name))
		}
		if err := to.WriteHeader(&h); err != nil {
			t.Fatal(err)
		}
		if h.Typeflag == tar.TypeReg {
			if _, err := io.WriteString(to, h.Name); err != nil {
				t.Fatal(err)
			}
		}
	}
	if err := to.Close(); err != nil {
		t.Fatal(err)
	}
	return made.Bytes()
}

// packed returns what some packing makes of data: none, gzip, zstd or xz.
func packed(t testing.TB, data []byte, kind int) []byte {
	t.Helper()
	var made bytes.Buffer
	var to io.WriteCloser
	var err error
	switch kind {
	case 0:
		return data
	case 1:
		to = gzip.NewWriter(&made)
	case 2:
		to, err = zstd.NewWriter(&made)
	default:
		to, err = xz.NewWriter(&made)
	}
	if err == nil {
		_, err = to.Write(data)
	}
	if err == nil {
		err = to.Close()
	}
	if err != nil {
		t.Fatal(err)
	}
	return made.Bytes()
}

// listedFolder returns the entries below a folder as listed does.
func listedFolder(t testing.TB, folder string) string {
	t.Helper()
	var out strings.Builder
	err := filepath.WalkDir(folder, func(place string, _ fs.DirEntry, err error) error {
		if err != nil || place == folder {
			return err
		}
		var stat syscall.Stat_t
		if err := syscall.Lstat(place, &stat); err != nil {
			return err
		}
		name := strings.TrimPrefix(place, folder+"/")
		switch start := fmt.Sprintf("%04o %d:%d %s", stat.Mode&0o7777, stat.Uid, stat.Gid, name); stat.Mode & syscall.S_IFMT {
		case syscall.S_IFDIR:
			fmt.Fprintf(&out, "%s/ \"\"\n", start)
		case syscall.S_IFLNK:
			target, err := os.Readlink(place)
			fmt.Fprintf(&out, "%s -> %s\n", start, target)
			return err
		default:
			data, err := os.ReadFile(place)
			fmt.Fprintf(&out, "%s %q\n", start, data)
			return err
		}
		return nil
	})
	if err != nil {
		t.Fatal(err)
	}
	return out.String()
}

// A pathOf is a directory or a file that is there before.
type pathOf struct {
	path string
	mode os.FileMode
	uid  int
	file bool
}

var placed = []pathOf{
	{"to", 0o755, 0, false}, {"to/a", 0o2700, 3, false}, {"to/a/b", 0o750, 4, false}, {"to/a/f", 0o600, 5, true}, {"to/c", 0o604, 6, true},
}

// stateBefore returns these as a state.
func stateBefore() llb.State {
	state := llb.Scratch()
	for _, one := range placed {
		owner := llb.WithUIDGID(one.uid, one.uid)
		if one.file {
			state = state.File(llb.Mkfile("/"+one.path, one.mode, []byte("old"), owner))
			continue
		}
		info := &llb.CopyInfo{Mode: &one.mode} // an mkdir has no set-group bit
		owner.SetCopyOption(info)
		state = state.File(llb.Copy(llb.Scratch().File(llb.Mkdir("/empty", 0o755)), "/empty", "/"+one.path, info))
	}
	return state
}

// byDocker unpacks an archive as BuildKit does, by the library that it does it with, and returns what is there then.
func byDocker(t testing.TB, data []byte, dest string) (string, error) {
	t.Helper()
	top := t.TempDir()
	for _, one := range placed {
		place := filepath.Join(top, one.path)
		var err error
		if one.file {
			err = os.WriteFile(place, []byte("old"), 0o600)
		} else {
			err = os.Mkdir(place, 0o700)
		}
		if err == nil {
			err = os.Chown(place, one.uid, one.uid)
		}
		if err == nil {
			err = syscall.Chmod(place, uint32(one.mode))
		}
		if err != nil {
			t.Fatal(err)
		}
	}
	if err := os.MkdirAll(filepath.Join(top, dest), 0o755); err != nil {
		return "", err
	}
	err := archive.Untar(bytes.NewReader(data), filepath.Join(top, dest), &archive.TarOptions{BestEffortXattrs: true})
	return listedFolder(t, top), err
}

// randomArchive returns an archive of entries that get in each other's way, and into that of what is there before.
func randomArchive(t testing.TB, random *rand.Rand) []byte {
	t.Helper()
	names := []string{"a", "b", "c", "d", "f"}
	pick := func(all ...string) string { return all[random.Intn(len(all))] }
	var all []tar.Header
	// Hard links are beside modes without the upper bits: docker looks for their targets in a chroot, and a test has none.
	most := int64([]int{0o7777, 0o1777}[random.Intn(2)])
	for n := 1 + random.Intn(6); n > 0; n-- {
		parts := []string{}
		for depth := 1 + random.Intn(3); depth > 0; depth-- {
			parts = append(parts, pick(names...))
		}
		h := tar.Header{
			Name: pick("", "./", "/") + strings.Join(parts, "/"), Mode: random.Int63n(0o10000) & most, Uid: random.Intn(9), Gid: random.Intn(9), Typeflag: tar.TypeReg,
		}
		switch random.Intn(8) {
		case 0, 1, 2:
			h.Typeflag, h.Name = tar.TypeDir, h.Name+"/"
		case 3:
			h.Typeflag, h.Linkname = tar.TypeSymlink, pick("a", "../b", "/a/b", "none")
		case 4:
			if len(all) > 0 && most == 0o1777 {
				to := all[random.Intn(len(all))]
				h.Typeflag, h.Linkname, h.Mode = tar.TypeLink, to.Name, to.Mode
			}
		case 5:
			h.Name = pick("./", "/", "a/.wh.f", ".wh.c")
			if h.Name == "./" || h.Name == "/" {
				h.Typeflag = tar.TypeDir
			}
		}
		all = append(all, h)
	}
	return tarOf(t, all...)
}

// adding returns a state with what an ADD of an archive makes of another one.
func adding(on llb.State, dest string) llb.State {
	info := &llb.CopyInfo{AttemptUnpack: true, CreateDestPath: true, FollowSymlinks: true, AllowWildcard: true}
	return on.File(llb.Copy(llb.Local("context"), "/archive", dest, info))
}

func TestAnArchiveIsUnpackedAsBuildKitsLibraryDoesIt(t *testing.T) {
	if os.Geteuid() != 0 {
		t.Skip("only root sets owners")
	}
	d, random := started(t, func(o *Options) { o.Strict = true }), rand.New(rand.NewSource(11))
	same, refused := 0, 0
	for n := range 40 {
		data := randomArchive(t, random)
		root := directory(t, map[string]string{"archive": string(packed(t, data, n%4))})
		for _, dest := range []string{"/to", []string{"/new/place/", "/"}[n%2]} {
			state := adding(stateBefore(), dest)
			if n%3 == 0 { // what is there is not known before
				state = adding(stateBefore().Run(llb.Args([]string{"mkdir", "/to/d"}), llb.Dir("/")).Root().File(llb.Rm("/to/d")), dest)
			}
			got, err := d.solved(t, state, client.SolveOpt{LocalDirs: map[string]string{"context": root}})
			want, wantErr := byDocker(t, data, dest)
			switch {
			case err != nil || wantErr != nil && strings.Contains(wantErr.Error(), "invalid symlink"): // which is none in a chroot
				refused++
			case wantErr != nil:
				t.Errorf("%d, %s: %q, and there %v", n, dest, got, wantErr)
			case got != want:
				t.Errorf("%d, %s: %q, not %q", n, dest, got, want)
			default:
				same++
			}
		}
	}
	if same < 30 {
		t.Errorf("%d are the same, and %d are refused", same, refused)
	}
}

func TestAnArchiveIsUnpackedIntoWhatIsThere(t *testing.T) {
	d := started(t, func(o *Options) { o.Strict = true })
	dir := func(name string, mode int64) tar.Header {
		return tar.Header{Name: name, Mode: mode, Uid: 1, Gid: 2, Typeflag: tar.TypeDir}
	}
	file := func(name string) tar.Header { return tar.Header{Name: name, Mode: 0o600, Typeflag: tar.TypeReg} }
	link := func(name, target string) tar.Header {
		return tar.Header{Name: name, Linkname: target, Typeflag: tar.TypeSymlink}
	}
	root := directory(t, map[string]string{"g/s/f": "old", "x/f": "old"})
	for link, target := range map[string]string{"absolute": "/x", "above": "../../x", "gone": "nothing"} {
		if err := os.Symlink(target, filepath.Join(root, "g", link)); err != nil {
			t.Fatal(err)
		}
	}
	if err := os.Mkdir(filepath.Join(root, "g", "x"), 0o700); err != nil {
		t.Fatal(err)
	}
	if err := os.Chmod(filepath.Join(root, "g", "s"), os.ModeSetgid|0o775); err != nil {
		t.Fatal(err)
	}
	const f, x = "0644 0:9 g/s/f \"old\"\n", "0700 0:9 g/x/ \"\"\n"
	links := "0755 0:9 g/ \"\"\n0777 0:9 g/above -> ../../x\n0777 0:9 g/absolute -> /x\n0777 0:9 g/gone -> nothing\n"
	const outside = "0755 0:9 x/ \"\"\n0644 0:9 x/f \"old\"\n"
	for name, one := range map[string]struct {
		dest    string
		entries []tar.Header
		want    string // or why it fails
	}{
		"no entry in one that hands down its bit": {
			"/g", []tar.Header{file("s/d/n")}, links + "2775 0:9 g/s/ \"\"\n2755 0:0 g/s/d/ \"\"\n0600 0:0 g/s/d/n \"s/d/n\"\n" + f + x + outside,
		},
		"the entry after one without": {
			"/", []tar.Header{file("g/s/d/n"), dir("g/s", 0o700)},
			links + "0700 1:2 g/s/ \"\"\n2755 0:0 g/s/d/ \"\"\n0600 0:0 g/s/d/n \"g/s/d/n\"\n" + f + x + outside,
		},
		"a file for a directory": {"/g", []tar.Header{file("s")}, links + "0600 0:0 g/s \"s\"\n" + x + outside},
		"a directory for a file": {
			"/g", []tar.Header{dir("s/f", 0o755)}, links + "2775 0:9 g/s/ \"\"\n0755 1:2 g/s/f/ \"\"\n" + x + outside,
		},
		"a directory that was a file": {
			"/g", []tar.Header{file("s"), dir("s", 0o755), file("s/n")}, links + "0755 1:2 g/s/ \"\"\n0600 0:0 g/s/n \"s/n\"\n" + x + outside,
		},
		"through an absolute link": {
			"/g", []tar.Header{file("absolute/n")}, links + "2775 0:9 g/s/ \"\"\n" + f + x + "0600 0:0 g/x/n \"absolute/n\"\n" + outside,
		},
		"through a link and beside it": {
			"/g", []tar.Header{file("x/n"), file("absolute/n")}, links + "2775 0:9 g/s/ \"\"\n" + f + x + "0600 0:0 g/x/n \"absolute/n\"\n" + outside,
		},
		"beside a link and through it": {
			"/g", []tar.Header{file("absolute/n"), file("x/n")}, links + "2775 0:9 g/s/ \"\"\n" + f + x + "0600 0:0 g/x/n \"x/n\"\n" + outside,
		},
		"through a link that leads above": {
			"/g", []tar.Header{file("above/n")}, links + "2775 0:9 g/s/ \"\"\n" + f + x + "0600 0:0 g/x/n \"above/n\"\n" + outside,
		},
		"through a link to nothing":                   {"/g", []tar.Header{file("gone/n")}, "/g/gone: /g/gone is a file"},
		"the entry after others, where a file is":     {"/g/s", []tar.Header{file("f/n"), dir("f", 0o755)}, "/g/s/f is a file"},
		"the entry after others, where a link is":     {"/g", []tar.Header{file("absolute/n"), dir("absolute", 0o755)}, "/g/absolute is a file"},
		"a link for a directory that can not be made": {"/g/s", []tar.Header{file("f/n"), link("f", "n")}, "/g/s/f is a file"},
		"a file for a directory that can not be made": {"/g/s", []tar.Header{file("f/n"), file("f")}, "/g/s/f is a file"},
		"a link for a directory, which leads to another": {
			"/g/x", []tar.Header{dir("d", 0o700), dir("d/e", 0o700), dir("o", 0o700), dir("o/e", 0o711), link("d", "o")},
			links + "2775 0:9 g/s/ \"\"\n" + f + x + "0777 0:0 g/x/d -> o\n0700 1:2 g/x/o/ \"\"\n0711 1:2 g/x/o/e/ \"\"\n" + outside,
		},
		"a hard link to what a link leads to": {
			"/g/x", []tar.Header{file("d/n"), link("l", "d"), {Name: "h", Linkname: "l/n", Mode: 0o640, Uid: 3, Typeflag: tar.TypeLink}},
			links + "2775 0:9 g/s/ \"\"\n" + f + x + "0755 0:0 g/x/d/ \"\"\n0640 3:0 g/x/d/n \"d/n\"\n0640 3:0 g/x/h \"d/n\"\n0777 0:0 g/x/l -> d\n" + outside,
		},
		"an entry for the directory itself": {
			"/g/s", []tar.Header{dir("/", 0o2711), file("n"), file("m/n")},
			links + "2711 1:2 g/s/ \"\"\n" + f + "2755 0:0 g/s/m/ \"\"\n0600 0:0 g/s/m/n \"m/n\"\n0600 0:0 g/s/n \"n\"\n" + x + outside,
		},
		"an entry for the directory itself after one in it": {
			"/g/s", []tar.Header{file("m/n"), dir("/", 0o711)},
			links + "0711 1:2 g/s/ \"\"\n" + f + "2755 0:0 g/s/m/ \"\"\n0600 0:0 g/s/m/n \"m/n\"\n" + x + outside,
		},
		"paths that lead above": {"/g/x", []tar.Header{file("../../n")}, links + "2775 0:9 g/s/ \"\"\n" + f + x + "0600 0:0 g/x/n \"../../n\"\n" + outside},
	} {
		archive := directory(t, map[string]string{"archive": string(tarOf(t, one.entries...))})
		info := &llb.CopyInfo{CopyDirContentsOnly: true}
		llb.WithUIDGID(0, 9).SetCopyOption(info)
		state := adding(llb.Scratch().File(llb.Copy(llb.Local("before"), "/", "/", info)), one.dest)
		got, err := d.solved(t, state, client.SolveOpt{LocalDirs: map[string]string{"context": archive, "before": root}})
		if got != one.want && (err == nil || !strings.Contains(err.Error(), one.want)) {
			t.Errorf("%s: %q, not %q: %v", name, got, one.want, err)
		}
	}
}

func TestWhatAnArchiveUnpacksToIsCopiedBesideFiles(t *testing.T) {
	d := started(t, func(o *Options) { o.Strict = true })
	root := directory(t, map[string]string{
		"a.tar": string(tarOf(t, tar.Header{Name: "x/y", Mode: 0o600, Uid: 3, Gid: 4, Typeflag: tar.TypeReg})), "b.txt": "b",
		"c.tgz": string(packed(t, tarOf(t, tar.Header{Name: "z", Mode: 0o640, Typeflag: tar.TypeReg}), 1)),
	})
	if err := os.Symlink("a.tar", filepath.Join(root, "linked.tar")); err != nil {
		t.Fatal(err)
	}
	info := llb.CopyInfo{AttemptUnpack: true, CreateDestPath: true, FollowSymlinks: true, AllowWildcard: true}
	owned := info
	llb.WithUIDGID(7, 8).SetCopyOption(&owned)
	const unpacked = "0755 0:0 x/ \"\"\n0600 3:4 x/y \"x/y\"\n"
	context := llb.Local("context")
	for name, one := range map[string]struct {
		state llb.State
		want  string
	}{
		"a pattern":      {llb.Scratch().File(llb.Copy(context, "/[abc].*", "/", &info)), "0644 0:0 b.txt \"b\"\n" + unpacked + "0640 0:0 z \"z\"\n"},
		"through a link": {llb.Scratch().File(llb.Copy(context, "/linked.tar", "/", &info)), unpacked},
		"an owner":       {llb.Scratch().File(llb.Copy(context, "/c.tgz", "/d/e/", &owned)), "0755 7:8 d/ \"\"\n0755 7:8 d/e/ \"\"\n0640 0:0 d/e/z \"z\"\n"},
		"among actions": {
			llb.Scratch().File(llb.Mkdir("/m", 0o700).Copy(context, "/a.tar", "/m", &info).Mkfile("/m/f", 0o644, nil).Copy(context, "/a.tar", "/n", &info)),
			"0700 0:0 m/ \"\"\n0644 0:0 m/f \"\"\n" + below("m/", unpacked) + "0755 0:0 n/ \"\"\n" + below("n/", unpacked),
		},
	} {
		got, err := d.solved(t, one.state, client.SolveOpt{LocalDirs: map[string]string{"context": root}})
		if err != nil || got != one.want {
			t.Errorf("%s: %q, not %q: %v", name, got, one.want, err)
		}
	}
}

// below returns lines of entries with something before each path.
func below(above, lines string) string {
	var out strings.Builder
	for _, line := range strings.SplitAfter(lines, "\n") {
		if parts := strings.SplitN(line, " ", 3); len(parts) == 3 {
			out.WriteString(parts[0] + " " + parts[1] + " " + above + parts[2])
		}
	}
	return out.String()
}

func TestAnArchiveThatCanNotBeUnpackedIsRefusedByItsName(t *testing.T) {
	d := started(t, nil)
	file := func(name string) tar.Header { return tar.Header{Name: name, Mode: 0o644, Typeflag: tar.TypeReg} }
	link := tar.Header{Name: "l", Linkname: "d", Typeflag: tar.TypeSymlink}
	for why, data := range map[string][]byte{
		"the directory /l is replaced by a later":  tarOf(t, tar.Header{Name: "l/", Mode: 0o755, Typeflag: tar.TypeDir}, link),
		"a file with entries below it: /a":         tarOf(t, file("a"), file("a/b")),
		"\"a\" is a link to \"a\", which is no":    tarOf(t, file("a"), tar.Header{Name: "a", Linkname: "a", Typeflag: tar.TypeLink}),
		"\"a\" is a link to \"a/b\", which is no":  tarOf(t, file("a/b"), tar.Header{Name: "a", Linkname: "a/b", Typeflag: tar.TypeLink}),
		"which is no file of the archive":          tarOf(t, file("a"), tar.Header{Name: "b", Linkname: "none", Typeflag: tar.TypeLink}),
		"is the directory to which the archive is": tarOf(t, file("a"), tar.Header{Name: "/", Linkname: "a", Typeflag: tar.TypeSymlink}),
		"\"a\" has an owner that is not below":     tarOf(t, tar.Header{Name: "a", Uid: 1<<32 - 1, Typeflag: tar.TypeReg}),
		"/a/p is a special file":                   tarOf(t, tar.Header{Name: "a/p", Typeflag: tar.TypeFifo}),
		"unexpected EOF":                           tarOf(t, file(strings.Repeat("long/", 15)+"name"))[:520],
	} {
		root := directory(t, map[string]string{"archive": string(data)})
		_, err := d.solved(t, adding(llb.Scratch(), "/"), client.SolveOpt{LocalDirs: map[string]string{"context": root}})
		if err == nil || !strings.Contains(err.Error(), why) || !strings.Contains(err.Error(), "the archive /archive: ") {
			t.Errorf("%s: %v", why, err)
		}
	}
}
