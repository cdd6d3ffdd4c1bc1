package rules

import (
	"context"
	"encoding/binary"
	"fmt"
	"io"
	"iter"

	"llbm/daemon/internal/paths"
	"llbm/daemon/internal/persistent"
	"llbm/daemon/internal/tree"
)

// A content is what a tree's text has of a file.
type content struct {
	text  string
	sum   persistent.Sum
	given *Given // what is known of it, if it is a token
}

func contentOf(text string) content { return content{text: text, sum: persistent.SumOf([]byte(text))} }

// An entry is what a directory or a file is by itself.
type entry struct {
	dir               bool
	linked            bool // of a file: whether its source has other names for it
	mode, user, group uint32
	content           content // of a file
	folder            Folder  // of a directory of what an archive unpacks to
	time              Time    // the same, where it is known; equal nodes may have others
}

// A Node is an entry with all that is below it. No node is changed once it is made, and trees share nodes. No node is a tree
// without a root.
type Node struct {
	entry
	below persistent.Map[*Node]
	sum   persistent.Sum
}

const newMode = 0o755

// newNode makes a node; a file has nothing below it. The mode of a link is always the same.
func newNode(one entry, below persistent.Map[*Node]) *Node {
	if one.isLink() {
		one.mode = modeOfLink
	}
	var space [64]byte
	data := append(space[:0], 0)
	if one.dir {
		data[0] = 1
	} else if one.linked {
		data[0] = 2
	}
	for _, number := range []uint32{one.mode, one.user, one.group} {
		data = binary.LittleEndian.AppendUint32(data, number)
	}
	if one.folder != (Folder{}) {
		data = fmt.Append(data, one.folder)
	}
	last := below.Sum()
	if !one.dir {
		last = one.content.sum
	}
	return &Node{one, below, persistent.SumOf(append(data, last[:]...))}
}

func newDir(mode uint32) entry { return entry{dir: true, mode: mode} }

// Empty returns the tree with nothing below its root.
func Empty() *Node { return newNode(newDir(newMode), persistent.Map[*Node]{}) }

// Sum returns a digest of the tree.
func (n *Node) Sum() persistent.Sum {
	if n == nil {
		return persistent.Sum{}
	}
	return n.sum
}

// Extent returns the longest path below the node, and whether a link is at it or below it.
func (n *Node) Extent() persistent.Extent {
	extent := n.below.Extent()
	extent.HasLinks = extent.HasLinks || n.isLink()
	return extent
}

// Equal is whether two trees are equal.
func Equal(a, b *Node) bool { return a == b || a != nil && b != nil && a.sum == b.sum }

// SameContent is whether two nodes are files with one content.
func SameContent(a, b *Node) bool {
	return a != nil && b != nil && !a.dir && !b.dir && a.content.sum == b.content.sum
}

// SameEntry is whether two nodes are equal, but for what is below them.
func SameEntry(a, b *Node) bool { return a != nil && b != nil && (pair{a, b}).aspects() == 0 }

// EqualBelow is whether two trees are equal, but for their roots' own entries, which no result shows. A tree without a root has
// nothing below it.
func EqualBelow(a, b *Node) bool { return a.children().Sum() == b.children().Sum() }

// At returns what is at a path, or nil.
func (n *Node) At(path []string) *Node {
	for _, name := range path {
		n = n.Child(name)
	}
	return n
}

// Child returns what has a name in a directory, or nil.
func (n *Node) Child(name string) *Node {
	if n == nil {
		return nil
	}
	return n.below.Get(name)
}

// children returns what is below a node, or nothing.
func (n *Node) children() persistent.Map[*Node] {
	if n == nil {
		return persistent.Map[*Node]{}
	}
	return n.below
}

// IsDir is whether there is a directory.
func (n *Node) IsDir() bool { return n != nil && n.dir }

// IsArchive is whether a file that BuildKit unpacks is at a path.
func (n *Node) IsArchive(path []string) bool { return n.At(path).isArchive() }

// isArchive is whether there is a file that BuildKit unpacks.
func (n *Node) isArchive() bool { return n != nil && !n.dir && n.content.isArchive() }

// Mode returns the low twelve bits of the mode.
func (n *Node) Mode() uint32 { return n.mode }

// Owner returns the user and the group.
func (n *Node) Owner() (user, group uint32) { return n.user, n.group }

// Text returns the content of a file, as the text of its tree has it.
func (n *Node) Text() string { return n.content.text }

// Names returns the names in a directory, in order.
func (n *Node) Names() []string {
	var out []string
	for name := range n.children().All() {
		out = append(out, name)
	}
	return out
}

// isBelowFile is whether a file is at a proper prefix of a path.
func (n *Node) isBelowFile(path []string) bool {
	for i := 0; n != nil && i < len(path); i++ {
		if !n.dir {
			return true
		}
		n = n.Child(path[i])
	}
	return false
}

// withEntry returns the node with another entry, and what is below it if it is a directory.
func (n *Node) withEntry(one entry) *Node {
	if n.entry == one {
		return n
	}
	if !one.dir {
		return newNode(one, persistent.Map[*Node]{})
	}
	return newNode(one, n.below)
}

// WithEntryOf returns a tree with the entry of another one's root; a tree without a root becomes an empty one. It shares what is
// below.
func (n *Node) WithEntryOf(root *Node) *Node {
	one := newDir(newMode)
	if root != nil {
		one = root.entry
	}
	if n == nil {
		return newNode(one, persistent.Map[*Node]{})
	}
	return n.withEntry(one)
}

// with returns the tree with a node at a path whose parent is a directory, in the place of what is there. No node removes it.
func (n *Node) with(path []string, one *Node) *Node {
	if len(path) == 0 {
		return one
	}
	below, after := n.below, n.Child(path[0]).with(path[1:], one)
	if after == nil {
		below = below.Delete(path[0])
	} else {
		below = below.Put(path[0], after)
	}
	return n.over(below)
}

// over returns the directory with something else below it.
func (n *Node) over(below persistent.Map[*Node]) *Node {
	if below == n.below {
		return n
	}
	return newNode(n.entry, below)
}

// Tree returns the entries of a tree, none if its root is removed.
func (n *Node) Tree() tree.Tree {
	if n == nil {
		return nil
	}
	return n.entries("", nil)
}

func (n *Node) entries(path string, found tree.Tree) tree.Tree {
	found = append(found, n.asEntry(path))
	if path != "" {
		path += "/"
	}
	for name, one := range n.below.All() {
		found = one.entries(path+name, found)
	}
	return found
}

func (n *Node) asEntry(path string) tree.Entry {
	one := tree.Entry{Path: path, Dir: n.dir, Mode: n.mode, UID: n.user, GID: n.group}
	if !n.dir {
		one.Content = []byte(n.content.text)
	}
	return one
}

// Of returns the node of a tree, nil of none.
func Of(t tree.Tree) *Node { return Reader{}.Of(t) }

// Read reads the text of a tree. Where it has the same as another tree at the same place, the two share it.
func Read(ctx context.Context, text io.Reader, near *Node) (*Node, error) {
	return Reader{Near: near}.Read(ctx, text)
}

// A Reader says what is known of a tree before its text is read.
type Reader struct {
	Near   *Node           // a tree that may have the same at the same place
	Linked []string        // the files that have other names
	Known  Known           // contents
	Times  map[string]Time // of some files
	// Folders are those of what an archive unpacks to, by their names.
	Folders map[string]Folder
}

// Of returns the node of a tree, nil of none.
func (r Reader) Of(t tree.Tree) *Node {
	b := builder{known: r.Known}
	for i := range t {
		_ = b.add(&t[i])
	}
	return b.tree()
}

// Read reads the text of a tree.
func (r Reader) Read(ctx context.Context, text io.Reader) (*Node, error) {
	return r.Take(ctx, entriesOf(text))
}

// Take returns the node of the entries of a tree, nil of none. The first error ends it.
func (r Reader) Take(ctx context.Context, entries iter.Seq2[*tree.Entry, error]) (*Node, error) {
	b := builder{near: r.Near, linked: map[string]bool{}, times: r.Times, known: r.Known, folders: r.Folders}
	for _, path := range r.Linked {
		b.linked[paths.Clean(path)] = true
	}
	return b.all(ctx, entries)
}
