package paths

import (
	"strings"
	"testing"
)

func TestANameIsWhatLlbmTakes(t *testing.T) {
	for name, is := range map[string]bool{
		"a": true, "..a": true, "a b": true, "ü": true, strings.Repeat("x", 255): true,
		"": false, ".": false, "..": false, "\xff": false, "a\n": false, "a\x7f": false, strings.Repeat("x", 256): false,
	} {
		if IsName(name) != is {
			t.Errorf("%q", name)
		}
	}
}

func TestAPathIsCleanedAsLlbmReadsIt(t *testing.T) {
	for text, want := range map[string]string{
		"": "", "/": "", "a": "a", "/a/b/": "a/b", "a//b": "a/b", "./a/.": "a", "a/../b": "b", "../../a": "a", "/..": "",
	} {
		if got := Clean(text); got != want {
			t.Errorf("%q: %q, not %q", text, got, want)
		}
	}
}
