package tree

import (
	"bytes"
	"fmt"
	"os"
	"strings"
	"testing"
)

const text = "d 0755 0 0 /\nd 1777 1 2 /a\nf 4644 3 4 6869 /a/b\nd 0755 0 0 /a/c\nf 0600 0 0 - /a/c/d e\nf 0644 0 0 ff00000001 /a-b\n"

func parsed(t *testing.T, text string) Tree {
	t.Helper()
	var out Tree
	for _, line := range strings.Split(strings.TrimSuffix(text, "\n"), "\n") {
		e, err := ParseLine([]byte(line))
		if err != nil {
			t.Fatal(err)
		}
		out = append(out, e)
	}
	return out
}

func TestATextIsReadAndWrittenUnchanged(t *testing.T) {
	var out bytes.Buffer
	if err := parsed(t, text).Write(&out); err != nil || out.String() != text {
		t.Errorf("%v\n%s", err, out.String())
	}
}

func TestModesHaveAtLeastFourDigits(t *testing.T) {
	for _, mode := range []uint32{0, 1, 7, 0o10, 0o77, 0o100, 0o777, 0o1000, 0o7777, 0o10000} {
		want := fmt.Sprintf("d %04o 4294967295 10 /a\n", mode)
		if got := string(appendLine(nil, &Entry{Path: "a", Dir: true, Mode: mode, UID: 1<<32 - 1, GID: 10})); got != want {
			t.Errorf("%q, not %q", got, want)
		}
	}
}

func TestALineThatIsNoneIsRefused(t *testing.T) {
	for _, line := range []string{
		"", "d", "d 0755 0 0", "d 0755 0 0 a", "x 0755 0 0 /a", "f 0644 0 0 /a", "f 0644 0 0 6 /a", "f 0644 0 0 zz /a", "d 0855 0 0 /",
		"d 0755 -1 0 /", "dd 0755 0 0 /",
	} {
		if e, err := ParseLine([]byte(line)); err == nil {
			t.Errorf("%q was read as %+v", line, e)
		}
	}
}

func TestEntriesAreFoundByCleanedPaths(t *testing.T) {
	tree := parsed(t, text)
	for name, want := range map[string]string{"": "", "/": "", "a": "a", "/a/../a//b": "a/b", "../a-b": "a-b", "a/c/d e": "a/c/d e"} {
		if e := tree.Find(name); e == nil || e.Path != want {
			t.Errorf("%q: %+v", name, e)
		}
	}
	for _, name := range []string{"b", "a/b/c", "a/", "a-"} {
		if e := tree.Find(name); e != nil && name != "a/" {
			t.Errorf("%q: %+v", name, e)
		}
	}
}

func TestAListHasWhatIsDirectlyBelow(t *testing.T) {
	tree := parsed(t, text)
	for name, want := range map[string]string{"": "a a-b", "a": "a/b a/c", "a/c": "a/c/d e"} {
		var got []string
		for _, e := range tree.List(name) {
			got = append(got, e.Path)
		}
		if strings.Join(got, " ") != want {
			t.Errorf("%q: %v", name, got)
		}
	}
}

func TestModesGoBothWays(t *testing.T) {
	for mode := uint32(0); mode < 0o10000; mode += 7 {
		e := Entry{Mode: mode}
		if got := UnixMode(e.GoMode()); got != mode {
			t.Errorf("%o became %o", mode, got)
		}
	}
	if e := (Entry{Dir: true, Mode: 0o1755}); e.GoMode() != os.ModeDir|os.ModeSticky|0o755 {
		t.Error(e.GoMode())
	}
}
