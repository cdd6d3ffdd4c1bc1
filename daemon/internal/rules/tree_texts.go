package rules

import (
	"bufio"
	"bytes"
	"context"
	"fmt"
	"io"
	"iter"
	"strings"

	"llbm/daemon/internal/persistent"
	"llbm/daemon/internal/tree"
)

// A builder makes a tree of entries in path order.
type builder struct {
	near    *Node           // a tree that may have the same
	linked  map[string]bool // the files that have other names
	times   map[string]Time // of some files
	known   Known           // contents
	folders map[string]Folder
	open    []*building // the directories that lead to the next entry
	last    string
}

// A building is a directory while what is below it is read.
type building struct {
	name, path string
	entry      entry
	near       *Node
	below      persistent.Builder[*Node]
}

// entryOf returns an entry of a tree.
func (b *builder) entryOf(e *tree.Entry) entry {
	one := entry{dir: e.Dir, mode: e.Mode, user: e.UID, group: e.GID}
	if e.Dir {
		one.folder = b.folders[e.Path]
	} else {
		one.content, one.linked, one.time = contentOf(string(e.Content)), b.linked[e.Path], b.times[e.Path]
		one.content.given = b.known[one.content.text]
	}
	return one
}

// begin begins with a root.
func (b *builder) begin(root entry) { b.open = []*building{{entry: root, near: b.near}} }

// add adds an entry of a tree's text, the root first.
func (b *builder) add(e *tree.Entry) error {
	if len(b.open) > 0 {
		return b.put(e.Path, b.entryOf(e))
	}
	if e.Path != "" || !e.Dir {
		return fmt.Errorf("%.80q comes before the root", e.Path)
	}
	b.begin(b.entryOf(e))
	return nil
}

// put adds what is below the root. What does not come after all before it, or comes without its directory, is refused.
func (b *builder) put(path string, one entry) error {
	if tree.Compare(b.last, path) >= 0 {
		return fmt.Errorf("%.80q is not in its place", path)
	}
	b.last = path
	parent, name := "", path
	if i := strings.LastIndexByte(path, '/'); i >= 0 {
		parent, name = path[:i], path[i+1:]
	}
	for len(b.open) > 1 && b.open[len(b.open)-1].path != parent {
		b.close()
	}
	in := b.open[len(b.open)-1]
	if in.path != parent {
		return fmt.Errorf("%.80q comes without its directory", path)
	}
	near := in.near.Child(name)
	if one.dir {
		b.open = append(b.open, &building{name: name, path: path, entry: one, near: near})
		return nil
	}
	in.below.Add(name, shared(newNode(one, persistent.Map[*Node]{}), near))
	return nil
}

// shared returns a node, or the same one that is there already.
func shared(n, near *Node) *Node {
	if Equal(n, near) {
		return near
	}
	return n
}

func (b *building) node() *Node { return shared(newNode(b.entry, b.below.Map()), b.near) }

// close ends the last directory.
func (b *builder) close() {
	last := len(b.open) - 1
	one := b.open[last]
	b.open = b.open[:last]
	b.open[last-1].below.Add(one.name, one.node())
}

func (b *builder) tree() *Node {
	if len(b.open) == 0 {
		return nil
	}
	for len(b.open) > 1 {
		b.close()
	}
	return b.open[0].node()
}

// linesAtOnce is how many entries are read or written without a look at the context.
const linesAtOnce = 1 << 12

// all adds all entries of a tree.
func (b *builder) all(ctx context.Context, entries iter.Seq2[*tree.Entry, error]) (*Node, error) {
	number := 0
	for e, err := range entries {
		if number%linesAtOnce == 0 && ctx.Err() != nil {
			return nil, ctx.Err()
		}
		if err == nil {
			err = b.add(e)
		}
		if err != nil {
			return nil, err
		}
		number++
	}
	return b.tree(), ctx.Err()
}

// entriesOf yields the entries of the text of a tree. An error is the last.
func entriesOf(text io.Reader) iter.Seq2[*tree.Entry, error] {
	return func(yield func(*tree.Entry, error) bool) {
		for lines := bufio.NewReaderSize(text, 1<<16); ; {
			line, err := lines.ReadBytes('\n')
			if err == io.EOF && len(line) == 0 {
				return
			}
			if err == nil || err == io.EOF {
				var e tree.Entry
				if e, err = tree.ParseLine(bytes.TrimSuffix(line, []byte("\n"))); err == nil && yield(&e, nil) {
					continue
				}
			}
			if err != nil {
				yield(nil, err)
			}
			return
		}
	}
}

// Write writes the text of a tree, entry by entry.
func (n *Node) Write(ctx context.Context, to io.Writer) error {
	out := bufio.NewWriterSize(to, 1<<16)
	if n != nil {
		if err := (&writer{ctx: ctx, out: out}).write(n, ""); err != nil {
			return err
		}
	}
	return out.Flush()
}

type writer struct {
	ctx   context.Context
	out   *bufio.Writer
	lines int
}

func (w *writer) write(n *Node, path string) error {
	if w.lines++; w.lines%linesAtOnce == 0 && w.ctx.Err() != nil {
		return w.ctx.Err()
	}
	one := n.asEntry(path)
	if err := tree.WriteEntry(w.out, &one); err != nil {
		return err
	}
	if path != "" {
		path += "/"
	}
	for name, below := range n.below.All() {
		if err := w.write(below, path+name); err != nil {
			return err
		}
	}
	return nil
}
