// Package sources takes local sources from clients' sessions, and keeps them so that an unchanged file is not sent again.
package sources

import (
	"bufio"
	"bytes"
	"fmt"
	"io"
	"iter"
	"slices"
	"time"

	"llbm/daemon/internal/archives"
	"llbm/daemon/internal/contents"
	"llbm/daemon/internal/tree"
)

// An Entry is what a client sent of a directory or a file.
type Entry struct {
	Path     string
	Dir      bool
	Mode     uint32
	UID, GID uint32
	Modified int64
	Content  contents.Ref
	Link     string // the target of a symbolic link, which has no content
}

// IsArchive is whether the content is that of a file which BuildKit unpacks.
func (e *Entry) IsArchive() bool {
	return archives.Is(io.NewSectionReader(e.Content, 0, e.Content.Size))
}

// A Manifest is a local source as it was sent: its entries in path order, without the root. Its holders share it.
type Manifest struct {
	Name    string
	Entries []Entry
	Bytes   int64    // of all contents
	Sent    int64    // of the contents that were sent this time
	Unread  int      // how many files were taken as they were before, by what the client says of them
	LeftOut []string // what was left out, up to a bound, and how many there were
	Left    int
	// Attributed is how many entries have extended attributes, which a tree of llbm has not, and FirstAttributed is the first.
	Attributed      int
	FirstAttributed string
	// Emptied are the paths of files of which nothing came, though they have bytes, up to a bound; EmptiedCount is how many there were.
	Emptied      []string
	EmptiedCount int
	// Removed are paths of an image that a layer removes after its own entry for them, up to a bound: only lower layers lose them.
	Removed   []string
	FirstLink string // the path of the first symbolic link, if there is one
	links     []link
	memory    int       // the bytes of the entries and their paths, about
	began     time.Time // when the transfer began
	packs     map[*contents.Pack]bool
}

// A link is a further name of a file: the place of its entry, and that of the file's first name.
type link struct{ entry, target int32 }

// HardLinks returns the names of each file that has several, the first name first. In BuildKit a write to one of them can be seen
// at all of them; in llbm each is a file of its own.
func (m *Manifest) HardLinks() [][]string {
	var out [][]string
	at := map[int32]int{}
	for _, l := range m.links {
		i, ok := at[l.target]
		if !ok {
			i, at[l.target] = len(out), len(out)
			out = append(out, []string{m.Entries[l.target].Path})
		}
		out[i] = append(out[i], m.Entries[l.entry].Path)
	}
	return out
}

// isLink is whether an entry is a further name of a file. The links are in the order of their entries.
func (m *Manifest) isLink(entry int) bool {
	_, found := slices.BinarySearchFunc(m.links, int32(entry), func(l link, entry int32) int { return int(l.entry - entry) })
	return found
}

// Hold keeps the contents until a Drop.
func (m *Manifest) Hold() {
	for pack := range m.packs {
		pack.Hold()
	}
}

// Drop ends a hold.
func (m *Manifest) Drop() {
	for pack := range m.packs {
		pack.Drop()
	}
}

// place returns the place of a path in the entries.
func (m *Manifest) place(path string) (int, bool) {
	return slices.BinarySearchFunc(m.Entries, path, func(e Entry, path string) int { return tree.Compare(e.Path, path) })
}

// Content returns the content of the file at a path, if there is one.
func (m *Manifest) Content(path string) (contents.Ref, bool) {
	at, ok := m.place(path)
	if !ok || m.Entries[at].Dir || m.Entries[at].Link != "" {
		return contents.Ref{}, false
	}
	return m.Entries[at].Content, true
}

// ByReference yields the source's tree with a token of the table in the place of each content and of each link, and notes each, if it is
// asked to. An error is the last.
func (m *Manifest) ByReference(table *contents.Table, note func(e *Entry, token []byte) error) iter.Seq2[*tree.Entry, error] {
	return m.tree(func(e *Entry) ([]byte, error) {
		var token []byte
		var err error
		if e.Link != "" {
			token, err = table.AddLink(e.Link)
		} else {
			token, err = table.Add(e.Content)
		}
		if err == nil && note != nil {
			err = note(e, token)
		}
		return token, err
	})
}

// WriteByReference writes the same as text.
func (m *Manifest) WriteByReference(to io.Writer, table *contents.Table, note func(e *Entry, token []byte) error) error {
	return write(to, m.ByReference(table, note))
}

// A HasMark says that a source by value has the byte with which tokens begin, so tokens would be mistaken.
type HasMark string

func (path HasMark) Error() string { return string(path) + " has the byte 255" }

// A HasLink says that a source with a symbolic link has to be given by value, where nothing has tokens.
type HasLink string

func (path HasLink) Error() string { return string(path) + " is a symbolic link" }

// WriteByValue writes the source's tree with its contents. With tokens elsewhere, which a table has, the byte 255 in a content is a
// HasMark; without a table a symbolic link is a HasLink, unless links are files that have their targets.
func (m *Manifest) WriteByValue(to io.Writer, table *contents.Table, linksAsFiles bool) error {
	return write(to, m.tree(func(e *Entry) ([]byte, error) {
		switch {
		case e.Link != "" && linksAsFiles:
			return []byte(e.Link), nil
		case e.Link != "" && table == nil:
			return nil, HasLink(e.Path)
		case e.Link != "":
			return table.AddLink(e.Link)
		}
		data := make([]byte, e.Content.Size)
		if _, err := e.Content.ReadAt(data, 0); err != nil {
			return nil, fmt.Errorf("%s: %w", e.Path, err)
		}
		if table != nil && bytes.IndexByte(data, contents.Mark) >= 0 {
			return nil, HasMark(e.Path)
		}
		return data, nil
	}))
}

// tree yields the source's tree, with what a function has for each content. An error is the last.
func (m *Manifest) tree(content func(*Entry) ([]byte, error)) iter.Seq2[*tree.Entry, error] {
	return func(yield func(*tree.Entry, error) bool) {
		if !yield(&tree.Empty()[0], nil) {
			return
		}
		for i := range m.Entries {
			e := &m.Entries[i]
			one := tree.Entry{Path: e.Path, Dir: e.Dir, Mode: e.Mode, UID: e.UID, GID: e.GID}
			var err error
			if !e.Dir && (e.Content.Size > 0 || e.Link != "") {
				one.Content, err = content(e)
			}
			if !yield(&one, err) || err != nil {
				return
			}
		}
	}
}

// write writes the text of a tree.
func write(to io.Writer, entries iter.Seq2[*tree.Entry, error]) error {
	out := bufio.NewWriterSize(to, 1<<16)
	for e, err := range entries {
		if err != nil {
			return err
		}
		if err := tree.WriteEntry(out, e); err != nil {
			return err
		}
	}
	return out.Flush()
}
