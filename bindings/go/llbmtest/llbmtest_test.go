package llbmtest

import (
	"context"
	"fmt"
	"os"
	"path/filepath"
	"strings"
	"testing"

	"github.com/moby/buildkit/client/llb"
)

// A recorder is a test that is told of errors and goes on; what ends it panics with the recorder.
type recorder struct {
	testing.TB
	said []string
}

func (r *recorder) Helper() {}
func (r *recorder) Errorf(format string, a ...any) {
	r.said = append(r.said, fmt.Sprintf(format, a...))
}
func (r *recorder) Fatalf(format string, a ...any) { r.Errorf(format, a...); panic(r) }
func (r *recorder) Fatal(a ...any)                 { r.Fatalf("%s", fmt.Sprint(a...)) }
func (r *recorder) Skipf(format string, a ...any)  { r.Fatalf("skipped: "+format, a...) }

// saidBy returns what a test says that does this.
func saidBy(t *testing.T, do func(t testing.TB)) (said string) {
	t.Helper()
	r := &recorder{TB: t}
	defer func() {
		if found := recover(); found != nil && found != any(r) {
			panic(found)
		}
		said = strings.Join(r.said, "\n")
	}()
	do(r)
	return
}

// wants checks that something is said.
func wants(t *testing.T, said string, words ...string) {
	t.Helper()
	for _, one := range words {
		if !strings.Contains(said, one) {
			t.Errorf("it does not say %q, but %q", one, said)
		}
	}
}

func written(path, content string) llb.State {
	return llb.Scratch().File(llb.Mkfile(path, 0o644, []byte(content)))
}

func TestWhatIsMadeIsChecked(t *testing.T) {
	state := llb.Scratch().File(llb.Mkfile("/x", 0o600, []byte("hi"), llb.WithUIDGID(7, 5)))
	Solve(t, state).Missing("/y").File("/x").Equals("hi").Mode(0o600).Owner(7, 5)
	for words, do := range map[string]func(r *Result){
		`/x has not the content`:                 func(r *Result) { r.File("/x").Equals("ho") },
		`/x has not the mode 0644, but 0600`:     func(r *Result) { r.File("/x").Mode(0o644) },
		`/x has not the owner 0:0, but 7:5`:      func(r *Result) { r.File("/x").Owner(0, 0) },
		`there is something at /x: /x 0600`:      func(r *Result) { r.Missing("/x") },
		`there is nothing at /y in`:              func(r *Result) { r.File("/y").Equals("").Mode(0).Owner(1, 1) },
		`/ is a directory, not a file with "hi"`: func(r *Result) { r.File("/").Equals("hi") },
	} {
		wants(t, saidBy(t, func(t testing.TB) { do(Solve(t, state)) }), words)
	}
}

func TestGraphsOfEachTypeAreTaken(t *testing.T) {
	definition, err := written("/x", "hi").Marshal(context.Background())
	if err != nil {
		t.Fatal(err)
	}
	before := string(definition.Def[0])
	for _, graph := range []any{definition, definition.ToPB()} {
		Solve(t, graph).File("/x").Equals("hi")
	}
	if string(definition.Def[0]) != before {
		t.Error("the definition was changed")
	}
	wants(t, saidBy(t, func(t testing.TB) { Solve(t, 1) }), "a graph is an llb.State, a *llb.Definition or a *pb.Definition, not a int")
}

func TestSourcesAreGiven(t *testing.T) {
	folder := t.TempDir()
	if err := os.WriteFile(filepath.Join(folder, "a"), []byte("from a folder"), 0o640); err != nil {
		t.Fatal(err)
	}
	if err := os.Chmod(filepath.Join(folder, "a"), 0o640); err != nil {
		t.Fatal(err)
	}
	copies := func(from llb.State) llb.State { return llb.Scratch().File(llb.Copy(from, "/a", "/b")) }
	Solve(t, copies(llb.Local("src")), Dir("src", folder)).File("/b").Equals("from a folder").Mode(0o640).Owner(0, 0)
	Solve(t, copies(llb.Local("ctx")), Files("ctx", map[string]string{"a": "made", "c/d": ""})).File("/b").Equals("made").Mode(0o644)
	onImage := llb.Image("alpine:3.19").File(llb.Copy(llb.Local("ctx"), "/a", "/b"))
	r := Solve(t, onImage, Image("alpine:3.19", folder), Files("ctx", map[string]string{"a": "made"}))
	r.File("/a").Equals("from a folder")
	r.File("/b").Equals("made")
}

func TestASourceThatTheGraphHasNotIsAnError(t *testing.T) {
	said := saidBy(t, func(t testing.TB) { Solve(t, written("/x", ""), Dir("src", "."), Image("alpine", ".")) })
	wants(t, said, "the graph has no local source src", "the graph has no image alpine")
}

func TestFiltersSelectAsForAClient(t *testing.T) {
	files := Files("ctx", map[string]string{".git/HEAD": "x", "main.go": "y", "a/b.go": "z", "a/c.txt": ""})
	local := llb.Local("ctx", llb.IncludePatterns([]string{"**/*.go"}), llb.ExcludePatterns([]string{"a/b*"}))
	r := Solve(t, llb.Scratch().File(llb.Copy(local, "/", "/")), files)
	r.Missing("/.git").Missing("/a/b.go").Missing("/a/c.txt").File("/main.go").Equals("y")
	followed := llb.Local("ctx", llb.FollowPaths([]string{"a/c.txt"}))
	Solve(t, llb.Scratch().File(llb.Copy(followed, "/", "/")), files).Missing("/main.go").File("/a/c.txt")
}

func TestOneNameWithFiltersThatSelectOtherwiseIsRefused(t *testing.T) {
	one, other := llb.Local("ctx", llb.IncludePatterns([]string{"a"})), llb.Local("ctx", llb.IncludePatterns([]string{"b"}))
	both := llb.Scratch().File(llb.Copy(one, "/a", "/a")).File(llb.Copy(other, "/b", "/b"))
	files := Files("ctx", map[string]string{"a": "", "b": ""})
	wants(t, saidBy(t, func(t testing.TB) { Solve(t, both, files) }), "several local source ctxs with filters that select otherwise")
}

func TestALinkInASourceIsRefused(t *testing.T) {
	folder := t.TempDir()
	if err := os.Symlink("b", filepath.Join(folder, "a")); err != nil {
		t.Fatal(err)
	}
	copies := llb.Scratch().File(llb.Copy(llb.Local("src"), "/", "/"))
	wants(t, saidBy(t, func(t testing.TB) { Solve(t, copies, Dir("src", folder)) }), "local source src: ", "/a is a symbolic link")
}

func TestAGoldenTreeIsWrittenAndCompared(t *testing.T) {
	file := filepath.Join(t.TempDir(), "testdata", "r.tree")
	said := saidBy(t, func(t testing.TB) { Solve(t, written("/x", "hi")).Golden(file) })
	wants(t, said, "there is no golden tree", "-update")
	*update = true
	Solve(t, written("/x", "hi")).Golden(file)
	*update = false
	Solve(t, written("/x", "hi")).Golden(file)
	if text, err := os.ReadFile(file); err != nil || string(text) != "d 0755 0 0 /\nf 0644 0 0 6869 /x\n" {
		t.Errorf("the golden tree is %q, %v", text, err)
	}
	said = saidBy(t, func(t testing.TB) { Solve(t, written("/x", "ho")).Golden(file) })
	wants(t, said, `- /x 0644 0:0 "hi"`, `+ /x 0644 0:0 "ho"`)
}

func TestAFailureHasItsReason(t *testing.T) {
	missing := llb.Scratch().File(llb.Copy(llb.Local("src"), "/b.txt", "/"))
	empty := Files("src", nil)
	if tools() == "" {
		t.Skip("there is no llbm-tools")
	}
	Fails(t, missing, "action 0", empty)
	Fails(t, llb.Image("alpine").File(llb.Mkdir("/a", 0o755)), "fault 88 0 Source")
	said := saidBy(t, func(t testing.TB) { Solve(t, missing, empty) })
	wants(t, said, "failed 1 action 0", "/b.txt")
	wants(t, saidBy(t, func(t testing.TB) { Fails(t, written("/x", "hi"), "nothing") }), `does not fail with "nothing"`, "/x 0644")
	wants(t, saidBy(t, func(t testing.TB) { Fails(t, missing, "none of this", empty) }), `does not fail with "none of this", but with`, "/b.txt")
}

func TestItIsSolvedByTheProgramWhereThereIsNoLibrary(t *testing.T) {
	path := os.Getenv(program)
	if path == "" {
		t.Skip("there is no program")
	}
	s := prepare(t, llb.Scratch().File(llb.Copy(llb.Local("ctx"), "/a", "/b")), []Source{Files("ctx", map[string]string{"a": "made"})})
	text, err := s.runBy(path)
	if err != nil || !strings.Contains(text, "f 0644 0 0 6d616465 /b\n") {
		t.Errorf("it makes %q, %v", text, err)
	}
	s.trees = nil
	if _, err = s.runBy(path); err == nil || !strings.Contains(err.Error(), "fault 121 ctx") {
		t.Errorf("it fails with %v", err)
	}
}

func TestBuildKitMakesTheSame(t *testing.T) {
	if tools() == "" {
		t.Skip("there is no llbm-tools")
	}
	Solve(t, written("/x", "hi")).SameAsBuildKit()
	under := llb.Scratch().File(llb.Mkfile("/a", 0o644, nil)).File(llb.Mkdir("/a", 0o755))
	said := saidBy(t, func(t testing.TB) { Solve(t, under).SameAsBuildKit() })
	if said == "" {
		t.Error("it is the same")
	}
}

// BenchmarkSolve solves the graph of a test: in this process, or by the program.
func BenchmarkSolve(b *testing.B) {
	s := prepare(b, llb.Scratch().File(llb.Copy(llb.Local("ctx"), "/a", "/b")), []Source{Files("ctx", map[string]string{"a": "made"})})
	b.Run("here", func(b *testing.B) {
		for range b.N {
			if _, err := s.runHere(); err != nil {
				b.Skip(err)
			}
		}
	})
	b.Run("program", func(b *testing.B) {
		for range b.N {
			if _, err := s.runBy(os.Getenv(program)); err != nil {
				b.Skip(err)
			}
		}
	})
}
