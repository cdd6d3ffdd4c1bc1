package server

import (
	"archive/tar"
	"bytes"
	"context"
	"errors"
	"fmt"
	"io"
	"os"
	"path/filepath"
	"slices"
	"strconv"
	"strings"
	"testing"
	"time"

	"github.com/moby/buildkit/client"
	"github.com/moby/buildkit/client/llb"
	"llbm/daemon/internal/frontends"
	"llbm/daemon/internal/machine"
)

const second = time.Second

// programs are where llbm is looked for, from this folder: the one that LLBM names comes first.
var programs = []string{"../../../crates/llbm/out/llbm", "../../../out/llbm-unproved"}

// llbm returns the program, or skips the test.
func llbm(t testing.TB) string {
	t.Helper()
	paths := programs
	if path := os.Getenv("LLBM"); path != "" {
		paths = []string{path}
	}
	working, err := os.Getwd()
	if err == nil {
		working, err = filepath.EvalSymlinks(working) // it may be below a link
	}
	if err != nil {
		t.Fatal(err)
	}
	for _, path := range paths {
		if !filepath.IsAbs(path) {
			path = filepath.Join(working, path)
		}
		if _, err := os.Stat(path); err == nil {
			return path
		}
	}
	t.Skip("llbm is not there: set LLBM, or make out/llbm-unproved")
	return ""
}

// A daemon is one in this process, with a client of it.
type daemon struct {
	*client.Client
	*Daemon
	address string
	stop    func()
}

// as returns a path by which this program is another one.
func as(t testing.TB, name string) string {
	t.Helper()
	own, err := os.Executable()
	path := filepath.Join(t.TempDir(), name)
	if err == nil {
		err = os.Symlink(own, path)
	}
	if err != nil {
		t.Fatal(err)
	}
	return path
}

// started starts a daemon, which a function may give other options, and stops it at the test's end.
func started(t testing.TB, change func(*Options)) *daemon {
	t.Helper()
	o := Options{
		Program: llbm(t), Rules: as(t, rulesName), Workers: 1, AtOnce: 4, Store: t.TempDir(), StoreBytes: 1 << 30, Idle: patience,
		Limits: machine.Limits{Memory: 2 << 30, Time: 2 * patience, Output: 64 << 20}, Frontends: &frontends.Frontends{},
	}
	if change != nil {
		change(&o)
	}
	ctx, cancel := context.WithCancel(context.Background())
	all, err := New(ctx, o)
	if err != nil {
		t.Fatal(err)
	}
	d := &daemon{Daemon: all, address: "unix://" + filepath.Join(short(t), "s")}
	done := make(chan error, 1)
	go func() { done <- d.Serve(ctx, d.address) }()
	ended := false
	d.stop = func() {
		if ended {
			return
		}
		ended = true
		cancel()
		if err := <-done; err != nil {
			t.Error(err)
		}
	}
	t.Cleanup(d.stop)
	d.Client = connected(t, d.address)
	return d
}

// short makes a folder with a path that is short enough for a socket's.
func short(t testing.TB) string {
	t.Helper()
	folder, err := os.MkdirTemp("", "llbmd-")
	if err != nil {
		t.Fatal(err)
	}
	t.Cleanup(func() { _ = os.RemoveAll(folder) })
	return folder
}

func connected(t testing.TB, address string) *client.Client {
	t.Helper()
	ctx, cancel := context.WithTimeout(context.Background(), patience)
	defer cancel()
	c, err := client.New(ctx, address)
	if err != nil {
		t.Fatal(err)
	}
	t.Cleanup(func() { _ = c.Close() })
	if err := c.Wait(ctx); err != nil {
		t.Fatal(err)
	}
	return c
}

func marshal(t testing.TB, state llb.State, options ...llb.ConstraintsOpt) *llb.Definition {
	t.Helper()
	def, err := state.Marshal(context.Background(), options...)
	if err != nil {
		t.Fatal(err)
	}
	return def
}

type buffer struct{ bytes.Buffer }

func (*buffer) Close() error { return nil }

// toTar is the exporter of an archive into memory.
func toTar(kind string, to *buffer, attrs map[string]string) client.ExportEntry {
	return client.ExportEntry{Type: kind, Attrs: attrs, Output: func(map[string]string) (io.WriteCloser, error) { return to, nil }}
}

// listed returns an archive's entries, a line each: mode, owner, name and content, or the target of a symbolic link.
func listed(t testing.TB, archive []byte) string {
	t.Helper()
	var out strings.Builder
	for r := tar.NewReader(bytes.NewReader(archive)); ; {
		h, err := r.Next()
		if errors.Is(err, io.EOF) {
			return out.String()
		}
		if err != nil {
			t.Fatal(err)
		}
		data, err := io.ReadAll(r)
		if err != nil {
			t.Fatal(err)
		}
		if h.Typeflag == tar.TypeSymlink {
			fmt.Fprintf(&out, "%04o %d:%d %s -> %s\n", h.Mode, h.Uid, h.Gid, h.Name, h.Linkname)
			continue
		}
		fmt.Fprintf(&out, "%04o %d:%d %s %q\n", h.Mode, h.Uid, h.Gid, h.Name, data)
	}
}

// solved builds a state and returns the result's archive.
func (d *daemon) solved(t testing.TB, state llb.State, o client.SolveOpt) (string, error) {
	t.Helper()
	var archive buffer
	o.Exports = append(o.Exports, toTar("tar", &archive, nil))
	ctx, cancel := context.WithTimeout(context.Background(), patience)
	defer cancel()
	if _, err := d.Solve(ctx, marshal(t, state), o, nil); err != nil {
		return "", err
	}
	return listed(t, archive.Bytes()), nil
}

// directory makes a directory of files.
func directory(t testing.TB, files map[string]string) string {
	t.Helper()
	root := t.TempDir()
	for name, text := range files {
		path := filepath.Join(root, name)
		if err := os.MkdirAll(filepath.Dir(path), 0o755); err != nil {
			t.Fatal(err)
		}
		if err := os.WriteFile(path, []byte(text), 0o644); err != nil {
			t.Fatal(err)
		}
	}
	return root
}

// children returns the processes that this one has started and that it has not waited for, but for the one that waits for a build
// of the daemon.
func (d *daemon) children(t testing.TB) []string {
	t.Helper()
	out := childrenOf(t, os.Getpid())
	waiting := strconv.Itoa(d.builds.Shared.Rules.Waiting())
	return slices.DeleteFunc(out, func(pid string) bool { return pid == waiting })
}

// childrenOf returns the processes that one has started and that it has not waited for.
func childrenOf(t testing.TB, process int) []string {
	t.Helper()
	lists, err := filepath.Glob(fmt.Sprintf("/proc/%d/task/*/children", process))
	if err != nil {
		t.Fatal(err)
	}
	var out []string
	for _, list := range lists {
		data, err := os.ReadFile(list)
		if err == nil {
			out = append(out, strings.Fields(string(data))...)
		}
	}
	return out
}

// patience is how long a host under load may take for what is done at once on an idle one.
const patience = 600 * second

// eventually waits until a condition holds.
func eventually(t testing.TB, what string, holds func() bool) {
	t.Helper()
	for end := time.Now().Add(patience); !holds(); time.Sleep(20 * time.Millisecond) {
		if time.Now().After(end) {
			t.Errorf("no answer after %s: %s", patience, what)
			return
		}
	}
}

// long is a state whose run takes longer than any test, in little memory: it hashes a file of 16 MiB again and again.
func long(state llb.State) llb.State {
	script := "write b x" + strings.Repeat(" && concat c b b && concat b c c", 12) + strings.Repeat(" && sha256 b d", 2000)
	return state.Run(llb.Args([]string{"/bin/sh", "-c", script}), llb.Dir("/")).Root()
}
