// Package paths has the rules of names, and reads the texts of paths and patterns.
package paths

import (
	"path"
	"strings"
	"unicode/utf8"
)

const (
	// MostNames is how many names a path of llbm has at most.
	MostNames = 128
	// MostOfName is how many bytes a name has at most.
	MostOfName = 255
)

// Names returns the names of a text: `.` is dropped, and `..` removes the name before it, whatever it is.
func Names(text string) []string {
	var out []string
	for _, part := range strings.Split(text, "/") {
		switch part {
		case "", ".":
		case "..":
			out = out[:max(0, len(out)-1)]
		default:
			out = append(out, part)
		}
	}
	return out
}

// Text returns the text of a path, with what it ends in.
func Text(names []string, end string) string {
	if len(names) == 0 {
		return "/"
	}
	return "/" + strings.Join(names, "/") + end
}

// Clean returns a path as entries of trees have it: names without a slash in front.
func Clean(text string) string { return strings.Join(Names(text), "/") }

// IsName is whether llbm takes a text as a name (docs/FORMATS.md, "Paths and trees").
func IsName(text string) bool {
	if text == "" || text == "." || text == ".." || len(text) > MostOfName || !utf8.ValidString(text) {
		return false
	}
	return strings.IndexFunc(text, func(c rune) bool { return c < 0x20 || c == 0x7f }) < 0
}

// IsPath is whether llbm takes a text as a path.
func IsPath(text string) bool {
	count := 0
	for _, part := range strings.Split(text, "/") {
		switch {
		case part == "" || part == ".":
		case part == "..":
			count = max(0, count-1)
		case !IsName(part) || count == MostNames:
			return false
		default:
			count++
		}
	}
	return true
}

// Wild returns how many parts of a pattern are before the first one with a wildcard.
func Wild(parts []string) int {
	for n, part := range parts {
		for i := 0; i < len(part); i++ {
			switch part[i] {
			case '\\':
				i++
			case '*', '?', '[':
				return n
			}
		}
	}
	return len(parts)
}

// HasWildcard is whether a text has a wildcard, as a path that is read.
func HasWildcard(text string) bool {
	parts := Names(text)
	return Wild(parts) < len(parts)
}

// IsMalformed is whether a part is no pattern by itself.
func IsMalformed(parts []string) bool {
	for _, part := range parts {
		if !IsPattern(part) {
			return true
		}
	}
	return false
}

// IsPattern is whether a text is a pattern.
func IsPattern(text string) bool {
	_, err := path.Match(text, "")
	return err == nil
}
