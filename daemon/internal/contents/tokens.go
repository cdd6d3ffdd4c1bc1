package contents

import (
	"bytes"
	"encoding/binary"
	"fmt"
	"io"
	"math"
)

// Mark is the byte that a token begins with.
const Mark = 0xff

const tokenSize = 5

// A Table has the contents that tokens stand for, by their numbers. The nil table is that of texts without tokens.
type Table struct {
	refs    []Ref
	packs   map[*Pack]bool
	targets map[uint32]string // of the tokens that are symbolic links
	links   map[string][]byte // the tokens of links, by their targets
}

// NewTable returns a table without contents.
func NewTable() *Table {
	return &Table{packs: map[*Pack]bool{}, targets: map[uint32]string{}, links: map[string][]byte{}}
}

// AddLink returns the token of a symbolic link: nothing reads it, and as the whole content of a file it is the link. Links with one
// target have one token.
func (t *Table) AddLink(target string) ([]byte, error) {
	if token, ok := t.links[target]; ok {
		return token, nil
	}
	token, err := t.number(Ref{})
	if err == nil {
		t.targets[uint32(len(t.refs)-1)], t.links[target] = target, token
	}
	return token, err
}

// Links returns the targets of all links by their tokens.
func (t *Table) Links() map[string]string {
	out := map[string]string{}
	if t != nil {
		for target, token := range t.links {
			out[string(token)] = target
		}
	}
	return out
}

// Link returns the target of the link that an entry's text is, or nothing.
func (t *Table) Link(text []byte) string {
	if t == nil || len(text) != tokenSize || text[0] != Mark {
		return ""
	}
	return t.targets[binary.BigEndian.Uint32(text[1:])]
}

// Add adds a content, holds its pack until Close, and returns its token.
func (t *Table) Add(ref Ref) ([]byte, error) {
	token, err := t.number(ref)
	if err == nil && !t.packs[ref.Pack] {
		ref.Pack.Hold()
		t.packs[ref.Pack] = true
	}
	return token, err
}

// number gives a content a token.
func (t *Table) number(ref Ref) ([]byte, error) {
	if len(t.refs) > math.MaxUint32 {
		return nil, fmt.Errorf("the sources have too many files")
	}
	t.refs = append(t.refs, ref)
	return binary.BigEndian.AppendUint32([]byte{Mark}, uint32(len(t.refs)-1)), nil
}

// Close drops the packs.
func (t *Table) Close() {
	if t == nil {
		return
	}
	for pack := range t.packs {
		pack.Drop()
	}
	t.packs = nil
}

// A Content is what a file has: pieces one after the other, each of literal bytes or of a pack. A symbolic link has its target, and
// no bytes.
type Content struct {
	Size   int64
	Link   string
	pieces []piece
}

type piece struct {
	from io.ReaderAt
	size int64
}

// Content reads the content of an entry's text.
func (t *Table) Content(text []byte) (Content, error) {
	var c Content
	add := func(from io.ReaderAt, size int64) {
		c.pieces = append(c.pieces, piece{from, size})
		c.Size += size
	}
	if c.Link = t.Link(text); c.Link != "" {
		return c, nil
	}
	if t == nil {
		add(bytes.NewReader(text), int64(len(text)))
		return c, nil
	}
	for len(text) > 0 {
		end := bytes.IndexByte(text, Mark)
		if end < 0 {
			end = len(text)
		}
		if end > 0 {
			add(bytes.NewReader(text[:end]), int64(end))
		}
		if text = text[end:]; len(text) == 0 {
			break
		}
		if len(text) < tokenSize {
			return c, fmt.Errorf("a content ends inside a token")
		}
		number := binary.BigEndian.Uint32(text[1:])
		if int64(number) >= int64(len(t.refs)) {
			return c, fmt.Errorf("a content has a token that is none of a source")
		}
		if target, isLink := t.targets[number]; isLink {
			return c, fmt.Errorf("a symbolic link to %.80q was read as a file", target)
		}
		add(t.refs[number], t.refs[number].Size)
		text = text[tokenSize:]
	}
	return c, nil
}

// Reader reads the content from an offset, and at most some bytes; a negative number is no bound.
func (c Content) Reader(offset, most int64) io.Reader {
	var parts []io.Reader
	for _, p := range c.pieces {
		if offset >= p.size {
			offset -= p.size
			continue
		}
		parts = append(parts, io.NewSectionReader(p.from, offset, p.size-offset))
		offset = 0
	}
	all := io.MultiReader(parts...)
	if most >= 0 {
		return io.LimitReader(all, most)
	}
	return all
}
