package printable

import "testing"

func TestWhatCantBePrintedIsEscaped(t *testing.T) {
	for given, want := range map[string]string{
		"/a b/ä": "/a b/ä", "a\tb\nc\r": `a\tb\nc\r`, "\x1b[1m": `\x1b[1m`, "\u2028": `\u2028`, "\U000e0001": `\U000e0001`, "": "",
	} {
		if got := Of(given); got != want {
			t.Errorf("%q: %q", given, got)
		}
	}
}

func TestALongTextIsCutBetweenCharacters(t *testing.T) {
	for _, one := range []struct {
		given, want string
		most        int
	}{{"abc", "abc", 3}, {"abcd", "abc ..", 3}, {"aä", "a ..", 2}, {"äb", "ä ..", 2}} {
		if got := Cut(one.given, one.most); got != one.want {
			t.Errorf("%q: %q", one.given, got)
		}
	}
}
