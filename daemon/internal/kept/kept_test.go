package kept

import (
	"encoding/json"
	"errors"
	"io"
	"os"
	"path/filepath"
	"slices"
	"strings"
	"testing"

	"golang.org/x/sys/unix"
)

func solved(ref, text string) Solved {
	return Solved{
		Ref: ref, Definition: []byte("def"), Record: []byte("1 claim 0 0 -> file 1\n"),
		Sources: []Source{{"context", func(to io.Writer) error {
			_, err := io.WriteString(to, text)
			return err
		}}},
	}
}

func opened(t *testing.T, path string, builds int, bytes int64) *Folder {
	t.Helper()
	f, err := Open(path, builds, bytes)
	if err != nil {
		t.Fatal(err)
	}
	t.Cleanup(func() { _ = f.Close() })
	return f
}

func read(t *testing.T, words ...string) string {
	t.Helper()
	data, err := os.ReadFile(filepath.Join(words...))
	if err != nil {
		t.Error(err)
	}
	return string(data)
}

func TestABuildIsFoundByItsRef(t *testing.T) {
	path := t.TempDir()
	f := opened(t, path, 3, 1<<20)
	if err := f.Add(solved("ref", "first")); err != nil {
		t.Fatal(err)
	}
	second := solved("ref", "second")
	second.Err = errors.New("it failed")
	if err := f.Add(second); err != nil {
		t.Fatal(err)
	}
	want := "context=" + filepath.Join(path, "ref/2/0.tree") + "\n"
	if got := read(t, path, "ref/last/sources"); got != want {
		t.Errorf("%q", got)
	}
	for name, want := range map[string]string{
		"1/0.tree": "first", "last/0.tree": "second", "last/definition": "def", "2/error": "it failed\n", "1/record": "1 claim 0 0 -> file 1\n",
	} {
		if got := read(t, path, "ref", name); got != want {
			t.Errorf("%s: %q", name, got)
		}
	}
	var launch struct {
		Definition string
		Sources    map[string]string
	}
	err := json.Unmarshal([]byte(read(t, path, "ref/last/launch.json")), &launch)
	if err != nil || launch.Sources["context"] != filepath.Join(path, "ref/2/0.tree") {
		t.Errorf("%+v %v", launch, err)
	}
}

func names(t *testing.T, path string) string {
	t.Helper()
	entries, err := os.ReadDir(path)
	if err != nil {
		t.Fatal(err)
	}
	var out []string
	for _, entry := range entries {
		if entry.Name() != marker {
			out = append(out, entry.Name())
		}
	}
	return strings.Join(out, " ")
}

func TestTheOldestBuildsAreDropped(t *testing.T) {
	path := t.TempDir()
	f := opened(t, path, 2, 1<<20)
	for _, ref := range []string{"a", "b", "c"} {
		if err := f.Add(solved(ref, "x")); err != nil {
			t.Fatal(err)
		}
	}
	if got := names(t, path); got != "b c" {
		t.Error(got)
	}
	if err := f.Close(); err != nil {
		t.Error(err)
	}
	f = opened(t, path, 1, 1<<20)
	if got := names(t, path); got != "c" {
		t.Error(got)
	}
	if err := f.Add(solved("c", "x")); err != nil || names(t, filepath.Join(path, "c")) != "1 2 last" {
		t.Error(err, names(t, filepath.Join(path, "c")))
	}
}

func TestTooManyBytesAreDropped(t *testing.T) {
	path := t.TempDir()
	f := opened(t, path, 10, 5000)
	for _, ref := range []string{"a", "b", "c"} {
		if err := f.Add(solved(ref, strings.Repeat("x", 2000))); err != nil {
			t.Fatal(err)
		}
	}
	if got := names(t, path); got != "b c" && got != "c" {
		t.Error(got)
	}
	if err := f.Add(solved("d", strings.Repeat("x", 6000))); err != nil || names(t, path) != "" {
		t.Error(err, names(t, path))
	}
}

func TestARefThatIsNoNameLeadsNowhereElse(t *testing.T) {
	for _, ref := range []string{"", ".", "..", "../x", "/etc", "a/b", ".new-x", strings.Repeat("x", 200), "a\nb", marker} {
		if name := Name(ref); !strings.HasPrefix(name, "sha256-") || !plain.MatchString(name) {
			t.Errorf("%q: %q", ref, name)
		}
	}
	if Name("e1q5l4aucfg7pcmhi2c4gnj4w") != "e1q5l4aucfg7pcmhi2c4gnj4w" {
		t.Error("the refs of clients are names")
	}
}

func TestAFolderWithOtherThingsIsRefused(t *testing.T) {
	path := t.TempDir()
	if err := os.WriteFile(filepath.Join(path, "mine"), nil, 0o600); err != nil {
		t.Fatal(err)
	}
	if _, err := Open(path, 1, 1); err == nil {
		t.Error("it was taken")
	}
}

func TestHalfABuildIsRemovedAtTheNextStart(t *testing.T) {
	path := t.TempDir()
	_ = opened(t, path, 1, 1<<20).Close()
	for _, name := range []string{unseen + "123", "empty"} {
		if err := os.Mkdir(filepath.Join(path, name), 0o700); err != nil {
			t.Fatal(err)
		}
	}
	opened(t, path, 1, 1<<20)
	if got := names(t, path); got != "" {
		t.Error(got)
	}
}

func TestABuildThatIsNotKeptWholeLeavesNothing(t *testing.T) {
	path := t.TempDir()
	f := opened(t, path, 2, 1<<20)
	full := errors.New("no space left on device")
	bad := Solved{Ref: "bad", Sources: []Source{{"context", func(io.Writer) error { return full }}}}
	if err := f.Add(solved("good", "x")); err != nil {
		t.Fatal(err)
	}
	for range 3 {
		if err := f.Add(bad); !errors.Is(err, full) {
			t.Error(err)
		}
	}
	bad.Ref = "good"
	if err := f.Add(bad); !errors.Is(err, full) {
		t.Error(err)
	}
	if got, parts := names(t, path), names(t, filepath.Join(path, "good")); got != "good" || parts != "1 last" {
		t.Error(got, parts)
	}
	// What was not kept does not count: there is room for one more build.
	if err := f.Add(solved("other", "x")); err != nil || names(t, path) != "good other" {
		t.Error(err, names(t, path))
	}
	if err := f.Add(solved("good", "second")); err != nil || read(t, path, "good/last/0.tree") != "second" || names(t, filepath.Join(path, "good")) != "1 2 last" {
		t.Error(err, names(t, filepath.Join(path, "good")))
	}
}

// On a full disk a build is kept in the place of the oldest ones, as many of them as it takes.
func TestOldBuildsMakeRoomOnAFullDisk(t *testing.T) {
	path := t.TempDir()
	f := opened(t, path, 10, 1<<20)
	for _, ref := range []string{"a", "b", "c"} {
		if err := f.Add(solved(ref, "x")); err != nil {
			t.Fatal(err)
		}
	}
	fits := func(ref string, beside ...string) Solved {
		return Solved{Ref: ref, Sources: []Source{{"context", func(io.Writer) error {
			for _, name := range strings.Fields(names(t, path)) {
				if !strings.HasPrefix(name, unseen) && !slices.Contains(beside, name) {
					return &os.PathError{Op: "write", Path: path, Err: unix.ENOSPC}
				}
			}
			return nil
		}}}}
	}
	if err := f.Add(fits("d", "c")); err != nil || names(t, path) != "c d" {
		t.Error(err, names(t, path))
	}
	if err := f.Add(fits("c", "c")); err != nil || names(t, path) != "c" || names(t, filepath.Join(path, "c")) != "1 2 last" {
		t.Error(err, names(t, path))
	}
	if err := f.Add(fits("c")); !errors.Is(err, unix.ENOSPC) || names(t, path) != "c" {
		t.Error(err, names(t, path))
	}
	// What was dropped does not count any more.
	if err := f.Add(solved("e", "x")); err != nil || names(t, path) != "c e" {
		t.Error(err, names(t, path))
	}
}

func TestAFolderOfAnotherDaemonIsRefused(t *testing.T) {
	path := t.TempDir()
	f := opened(t, path, 1, 1<<20)
	if _, err := Open(path, 1, 1<<20); err == nil || err.Error() != path+": another llbmd keeps its builds there" {
		t.Error(err)
	}
	if err := f.Close(); err != nil {
		t.Error(err)
	}
	opened(t, path, 1, 1<<20)
}
