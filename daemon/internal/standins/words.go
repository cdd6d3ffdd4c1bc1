// Package standins has the stand-ins for executions: rules that replace their words by scripts of llbm, as llbm-tools adopt reads them, and
// executions that do nothing.
package standins

import (
	"errors"
	"strings"
)

// split returns the words of a line, quoted as for a shell: as shlex.split of Python does, without comments.
func split(line string) ([]string, error) {
	var words []string
	var word strings.Builder
	isWord := false
	for i := 0; i < len(line); i++ {
		switch c := line[i]; c {
		case ' ', '\t', '\r', '\n':
			if isWord {
				words = append(words, word.String())
			}
			word.Reset()
			isWord = false
		case '\\':
			if i++; i == len(line) {
				return nil, errors.New("no escaped character")
			}
			word.WriteByte(line[i])
			isWord = true
		case '\'', '"':
			end := quoted(line[i:], &word)
			if end < 0 {
				return nil, errors.New("no closing quotation")
			}
			i += end
			isWord = true
		default:
			word.WriteByte(c)
			isWord = true
		}
	}
	if isWord {
		words = append(words, word.String())
	}
	return words, nil
}

// quoted adds the text between quotes to a word, and returns the place of the quote at its end, or a number below 0. Between double
// quotes, a backslash quotes a double quote and a backslash.
func quoted(text string, word *strings.Builder) int {
	quote := text[0]
	for i := 1; i < len(text); i++ {
		switch {
		case text[i] == quote:
			return i
		case quote == '"' && text[i] == '\\' && i+1 < len(text) && (text[i+1] == '"' || text[i+1] == '\\'):
			i++
		}
		word.WriteByte(text[i])
	}
	return -1
}

// isLike is whether a text is like a pattern, in which `*` is any characters and `?` is one.
func isLike(pattern, text []rune) bool {
	at, star, back := 0, -1, 0
	for i := 0; i < len(text); {
		switch {
		case at < len(pattern) && pattern[at] == '*':
			star, back = at, i
			at++
		case at < len(pattern) && (pattern[at] == '?' || pattern[at] == text[i]):
			at++
			i++
		case star >= 0:
			back++
			at, i = star+1, back
		default:
			return false
		}
	}
	for at < len(pattern) && pattern[at] == '*' {
		at++
	}
	return at == len(pattern)
}
