package llbm

import (
	"io/fs"
	"strings"
	"testing"
	"testing/fstest"
)

const text = "d 0755 0 0 /\nd 0711 7 5 /a\nf 4644 0 0 6869 /a/b c\nf 0600 0 0 - /a-\n"

func parsed(t *testing.T, text string) *Tree {
	t.Helper()
	tree, err := ParseTree(text)
	if err != nil {
		t.Fatal(err)
	}
	return tree
}

func TestATreeIsReadAndPrinted(t *testing.T) {
	tree := parsed(t, text)
	if got := tree.Text(); got != text {
		t.Errorf("the text is %q", got)
	}
	one, ok := tree.At("/a/b c")
	if !ok || one.Dir || one.Mode != 0o4644 || string(one.Content) != "hi" {
		t.Error(one, ok)
	}
	if _, ok := tree.At("a/c"); ok {
		t.Error("there is no /a/c")
	}
}

func TestATreeIsAFileSystem(t *testing.T) {
	tree := parsed(t, text)
	if err := fstest.TestFS(tree, "a", "a/b c", "a-"); err != nil {
		t.Error(err)
	}
	info, err := fs.Stat(tree, "a/b c")
	if err != nil || info.Mode() != 0o644|fs.ModeSetuid || info.Sys().(Entry).Path != "/a/b c" {
		t.Error(info, err)
	}
}

func TestWhatIsNoTreeIsRefused(t *testing.T) {
	for _, text := range []string{"x", "d 0755 0 0", "l 0777 0 0 /a", "f 0644 0 0 6 /a", "d 0755 0 0 /\nf 0644 0 0 - /a\nf 0644 0 0 - /a/b", "f 0644 0 0 - /"} {
		if tree, err := ParseTree(text); err == nil {
			t.Errorf("%q is read as %q", text, tree.Text())
		}
	}
}

func TestADifferenceHasALineForEachSide(t *testing.T) {
	other := parsed(t, "d 0755 0 0 /\nd 0755 7 5 /a\nf 4644 0 0 6869 /a/b c\nf 0644 0 0 ff /z\n")
	want := []string{
		`- /a 0711 7:5 directory`, `+ /a 0755 7:5 directory`, `- /a- 0600 0:0 ""`, `+ /z 0644 0:0 1 bytes, ff..`,
	}
	if got := parsed(t, text).Diff(other); got != strings.Join(want, "\n")+"\n" {
		t.Errorf("the difference is\n%s", got)
	}
	if got := other.Diff(other); got != "" {
		t.Errorf("a tree differs from itself: %s", got)
	}
}

func TestDirectoriesAboveAnEntryAreAdded(t *testing.T) {
	tree, err := NewTree(Entry{Path: "/a/b", Mode: 0o600, Content: []byte("x")})
	if err != nil || tree.Text() != "d 0755 0 0 /\nd 0755 0 0 /a\nf 0600 0 0 78 /a/b\n" {
		t.Error(tree, err)
	}
}
