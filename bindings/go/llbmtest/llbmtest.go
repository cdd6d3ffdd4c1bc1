// Package llbmtest solves in a test what a frontend makes, and compares the tree that comes out.
//
// What a frontend makes is an llb.State, a *llb.Definition or a *pb.Definition; its local sources, and trees in the place of its
// images, are given by Dir, Files and Image. It is solved in this process if the library is there (the variable LIBLLBM names it,
// and cgo is on), or else by the program that the variable LLBM names; if neither is there, the test is skipped, with these names.
package llbmtest

import (
	"errors"
	"flag"
	"os"
	"path/filepath"
	"strings"
	"testing"

	llbm "llbm.example/llbm/bindings/go"
)

var update = flag.Bool("update", false, "write golden trees anew (llbmtest)")

// A Result is the tree of a graph that was solved in a test.
type Result struct {
	*llbm.Tree
	t      testing.TB
	solved *solving
}

// Solve returns what a graph makes; where it is refused or fails, the test ends with the reason.
func Solve(t testing.TB, graph any, sources ...Source) *Result {
	t.Helper()
	solved := prepare(t, graph, sources)
	text, err := solved.run(t)
	if err != nil {
		t.Fatalf("llbm: %s", solved.reason(err))
	}
	tree, err := llbm.ParseTree(text)
	if err != nil {
		t.Fatalf("llbm: %v", err)
	}
	return &Result{tree, t, solved}
}

// Fails checks that a graph is refused or fails, with a reason that has these words, such as `there is no file /src/b.txt`.
func Fails(t testing.TB, graph any, words string, sources ...Source) {
	t.Helper()
	solved := prepare(t, graph, sources)
	text, err := solved.run(t)
	if err == nil {
		t.Errorf("it does not fail with %q, but makes\n%s", words, shown(text))
		return
	}
	if reason := solved.reason(err); !strings.Contains(reason, words) {
		t.Errorf("it does not fail with %q, but with\n%s", words, reason)
	}
}

// shown returns the text of a tree for a person.
func shown(text string) string {
	tree, err := llbm.ParseTree(text)
	if err != nil {
		return text
	}
	var out strings.Builder
	for _, one := range tree.Entries() {
		out.WriteString(one.String() + "\n")
	}
	return out.String()
}

// Missing checks that nothing is at a path.
func (r *Result) Missing(path string) *Result {
	r.t.Helper()
	if one, ok := r.At(path); ok {
		r.t.Errorf("there is something at %s: %v", path, one)
	}
	return r
}

// Golden checks that the tree is that of a file; with the option -update it writes the file.
func (r *Result) Golden(file string) *Result {
	r.t.Helper()
	if *update {
		if err := write(file, r.Text()); err != nil {
			r.t.Fatal(err)
		}
		return r
	}
	text, err := os.ReadFile(file)
	if errors.Is(err, os.ErrNotExist) {
		r.t.Fatalf("there is no golden tree %s; `go test -update` writes it", file)
	} else if err != nil {
		r.t.Fatal(err)
	}
	golden, err := llbm.ParseTree(string(text))
	if err != nil {
		r.t.Fatalf("%s: %v", file, err)
	}
	if difference := golden.Diff(r.Tree); difference != "" {
		r.t.Errorf("the tree is not that of %s (-), which `go test -update` writes anew:\n%s", file, difference)
	}
	return r
}

// write writes a file, which appears complete.
func write(file, text string) error {
	if err := os.MkdirAll(filepath.Dir(file), 0o777); err != nil {
		return err
	}
	new := file + ".new"
	if err := os.WriteFile(new, []byte(text), 0o666); err != nil {
		return err
	}
	return os.Rename(new, file)
}

// A File is what is at a path of a result.
type File struct {
	t     testing.TB
	path  string
	entry *llbm.Entry
}

// File returns what is at a path; it is an error of the test if nothing is there.
func (r *Result) File(path string) *File {
	r.t.Helper()
	one, ok := r.At(path)
	if !ok {
		r.t.Errorf("there is nothing at %s in\n%s", path, shown(r.Text()))
		return &File{r.t, path, nil}
	}
	return &File{r.t, path, &one}
}

// Equals checks that it is a file with this content.
func (f *File) Equals(content string) *File {
	f.t.Helper()
	if f.entry == nil {
		return f
	}
	if f.entry.Dir {
		f.t.Errorf("%s is a directory, not a file with %q", f.path, content)
	} else if string(f.entry.Content) != content {
		f.t.Errorf("%s has not the content\n%q\nbut\n%q", f.path, content, f.entry.Content)
	}
	return f
}

// Mode checks the mode, as 0o644.
func (f *File) Mode(mode uint32) *File {
	f.t.Helper()
	if f.entry != nil && f.entry.Mode != mode {
		f.t.Errorf("%s has not the mode %04o, but %04o", f.path, mode, f.entry.Mode)
	}
	return f
}

// Owner checks the user and the group.
func (f *File) Owner(user, group uint32) *File {
	f.t.Helper()
	if f.entry != nil && (f.entry.UID != user || f.entry.GID != group) {
		f.t.Errorf("%s has not the owner %d:%d, but %d:%d", f.path, user, group, f.entry.UID, f.entry.GID)
	}
	return f
}
