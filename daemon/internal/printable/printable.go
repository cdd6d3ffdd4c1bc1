// Package printable makes one line of a text that a client chose, for messages and warnings.
package printable

import (
	"fmt"
	"strings"
	"unicode"
	"unicode/utf8"
)

// Of returns a text with what can't be printed escaped.
func Of(text string) string {
	var out strings.Builder
	for _, c := range text {
		switch {
		case unicode.IsPrint(c):
			out.WriteRune(c)
		case c == '\t':
			out.WriteString(`\t`)
		case c == '\n':
			out.WriteString(`\n`)
		case c == '\r':
			out.WriteString(`\r`)
		case c < 0x100:
			fmt.Fprintf(&out, `\x%02x`, c)
		case c < 0x10000:
			fmt.Fprintf(&out, `\u%04x`, c)
		default:
			fmt.Fprintf(&out, `\U%08x`, c)
		}
	}
	return out.String()
}

// Cut returns a text of at most some bytes, with two dots where its end is left out.
func Cut(text string, most int) string {
	if len(text) <= most {
		return text
	}
	for most > 0 && !utf8.RuneStart(text[most]) {
		most--
	}
	return text[:most] + " .."
}
