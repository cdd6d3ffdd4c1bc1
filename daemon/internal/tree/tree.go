// Package tree has file trees as llbm prints and reads them: a line for each entry, in path order.
package tree

import (
	"bufio"
	"bytes"
	"encoding/hex"
	"fmt"
	"io"
	"os"
	"sort"
	"strconv"
	"strings"

	"llbm/daemon/internal/paths"
)

// An Entry is a directory or a file. Its path has no slash in front; the root's path is empty.
type Entry struct {
	Path     string
	Dir      bool
	Mode     uint32
	UID, GID uint32
	// Content is what the text has: the file's content, or literal bytes and tokens (package contents says which).
	Content []byte
}

// A Tree has its entries in path order, the root first.
type Tree []Entry

// Empty is the tree with nothing below its root.
func Empty() Tree { return Tree{{Dir: true, Mode: 0o755}} }

// WriteEntry writes the line of an entry.
func WriteEntry(out *bufio.Writer, e *Entry) error {
	_, err := out.Write(appendLine(out.AvailableBuffer(), e))
	return err
}

func appendLine(line []byte, e *Entry) []byte {
	if e.Dir {
		line = append(line, "d "...)
	} else {
		line = append(line, "f "...)
	}
	for least := uint32(0o1000); least > max(e.Mode, 1); least >>= 3 {
		line = append(line, '0') // a mode has at least four digits
	}
	line = append(strconv.AppendUint(line, uint64(e.Mode), 8), ' ')
	line = append(strconv.AppendUint(line, uint64(e.UID), 10), ' ')
	line = append(strconv.AppendUint(line, uint64(e.GID), 10), ' ')
	switch {
	case e.Dir:
	case len(e.Content) == 0:
		line = append(line, "- "...)
	default:
		line = append(hex.AppendEncode(line, e.Content), ' ')
	}
	return append(append(append(line, '/'), e.Path...), '\n')
}

// Write writes the text of the tree.
func (t Tree) Write(to io.Writer) error {
	out := bufio.NewWriterSize(to, 1<<16)
	for i := range t {
		if err := WriteEntry(out, &t[i]); err != nil {
			return err
		}
	}
	return out.Flush()
}

// ParseLine reads the line of an entry, without its end.
func ParseLine(line []byte) (Entry, error) {
	var words [4][]byte
	e, rest, content, ok := Entry{}, line, []byte("-"), false
	for i := range words {
		words[i], rest, ok = bytes.Cut(rest, []byte(" "))
	}
	if e.Dir = string(words[0]) == "d"; !e.Dir {
		content, rest, ok = bytes.Cut(rest, []byte(" "))
	}
	if !ok || !(e.Dir || string(words[0]) == "f") || len(rest) == 0 || rest[0] != '/' {
		return e, fmt.Errorf("%.80q is no line of a tree", line)
	}
	e.Path = string(rest[1:])
	for i, to := range []*uint32{&e.Mode, &e.UID, &e.GID} {
		base := 10
		if i == 0 {
			base = 8
		}
		n, err := strconv.ParseUint(string(words[i+1]), base, 32)
		if err != nil {
			return e, fmt.Errorf("%.80q is no line of a tree: %w", line, err)
		}
		*to = uint32(n)
	}
	if string(content) != "-" {
		e.Content = make([]byte, hex.DecodedLen(len(content)))
		if _, err := hex.Decode(e.Content, content); err != nil {
			return e, fmt.Errorf("%.80q is no line of a tree: %w", line, err)
		}
	}
	return e, nil
}

// Compare orders two paths as lists of names, which are ordered by their bytes.
func Compare(a, b string) int {
	for i := 0; i < len(a) && i < len(b); i++ {
		switch {
		case a[i] == b[i]:
		case a[i] == '/':
			return -1
		case b[i] == '/':
			return 1
		default:
			return int(a[i]) - int(b[i])
		}
	}
	return len(a) - len(b)
}

func (t Tree) place(name string) int {
	return sort.Search(len(t), func(i int) bool { return Compare(t[i].Path, name) >= 0 })
}

// Find returns the entry at a path, or nil.
func (t Tree) Find(name string) *Entry {
	name = paths.Clean(name)
	if i := t.place(name); i < len(t) && t[i].Path == name {
		return &t[i]
	}
	return nil
}

// List returns the entries directly below a directory, in the order of their names.
func (t Tree) List(name string) []*Entry {
	name = paths.Clean(name)
	prefix := name + "/"
	if name == "" {
		prefix = ""
	}
	var out []*Entry
	for i := t.place(name) + 1; i < len(t) && strings.HasPrefix(t[i].Path, prefix); i++ {
		if !strings.Contains(t[i].Path[len(prefix):], "/") {
			out = append(out, &t[i])
		}
	}
	return out
}

var specialBits = []struct {
	bit  uint32
	flag os.FileMode
}{{0o4000, os.ModeSetuid}, {0o2000, os.ModeSetgid}, {0o1000, os.ModeSticky}}

// GoMode returns the entry's mode as Go has it, with the bit of directories.
func (e *Entry) GoMode() os.FileMode {
	mode := os.FileMode(e.Mode & 0o777)
	for _, one := range specialBits {
		if e.Mode&one.bit != 0 {
			mode |= one.flag
		}
	}
	if e.Dir {
		mode |= os.ModeDir
	}
	return mode
}

// UnixMode returns the low twelve bits of a mode as Go has it.
func UnixMode(mode os.FileMode) uint32 {
	out := uint32(mode.Perm())
	for _, one := range specialBits {
		if mode&one.flag != 0 {
			out |= one.bit
		}
	}
	return out
}
