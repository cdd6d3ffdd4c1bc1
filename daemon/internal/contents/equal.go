package contents

import (
	"bytes"
	"io"
)

// AreEqual is whether two files have the same content, or two links the same target, by what their trees have of it.
func (t *Table) AreEqual(text, other []byte) bool {
	if bytes.Equal(text, other) {
		return true
	}
	var from [2]io.Reader
	var sizes [2]int64
	var links [2]string
	for i, one := range [][]byte{text, other} {
		one, err := t.Content(one)
		if err != nil {
			return false
		}
		from[i], sizes[i], links[i] = one.Reader(0, -1), one.Size, one.Link
	}
	var parts [2][32 << 10]byte
	for left := sizes[0]; sizes[0] == sizes[1] && left > 0; left -= int64(len(parts[0])) {
		for i := range from {
			if _, err := io.ReadFull(from[i], parts[i][:min(left, int64(len(parts[i])))]); err != nil {
				return false
			}
		}
		if !bytes.Equal(parts[0][:min(left, 32<<10)], parts[1][:min(left, 32<<10)]) {
			return false
		}
	}
	return sizes[0] == sizes[1] && links[0] == links[1]
}
