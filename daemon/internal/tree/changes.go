package tree

import (
	"bytes"
	"strings"
)

// A Change is an entry that differs from a tree before, or a path that is removed.
type Change struct {
	Entry
	Removed bool
}

// Changes returns what makes a tree of another one: in path order, each changed entry with the directories above it, and each path
// that is removed with all below it once.
func Changes(before, after Tree) []Change {
	c := &changes{after: after}
	for i, j := 0, 0; i < len(before) || j < len(after); {
		order := 0
		switch {
		case i == len(before):
			order = 1
		case j == len(after):
			order = -1
		default:
			order = Compare(before[i].Path, after[j].Path)
		}
		if order < 0 {
			c.remove(before[i].Path)
		} else if order > 0 || !same(&before[i], &after[j]) {
			c.add(&after[j])
		}
		if order <= 0 {
			i++
		}
		if order >= 0 {
			j++
		}
	}
	return c.all
}

func same(a, b *Entry) bool {
	return a.Dir == b.Dir && a.Mode == b.Mode && a.UID == b.UID && a.GID == b.GID && bytes.Equal(a.Content, b.Content)
}

type changes struct {
	after   Tree
	all     []Change
	written map[string]bool // the directories that are there
	gone    string          // the last path that was removed, or is no directory any more
}

// above adds the directories above a path that are not there yet.
func (c *changes) above(path string) {
	for at := 0; ; {
		next := strings.IndexByte(path[at:], '/')
		if next < 0 {
			return
		}
		at += next
		if e := c.after.Find(path[:at]); e != nil {
			c.put(e)
		}
		at++
	}
}

func (c *changes) put(e *Entry) {
	if c.written == nil {
		c.written = map[string]bool{}
	}
	if !c.written[e.Path] {
		c.written[e.Path] = true
		c.all = append(c.all, Change{Entry: *e})
	}
}

func (c *changes) add(e *Entry) {
	c.above(e.Path)
	c.put(e)
}

// remove adds a path that is gone, unless one above it is gone, or is a file now.
func (c *changes) remove(path string) {
	if c.gone != "" && strings.HasPrefix(path, c.gone+"/") {
		return
	}
	c.gone = path
	if i := strings.LastIndexByte(path, '/'); i >= 0 {
		if parent := c.after.Find(path[:i]); parent != nil && !parent.Dir {
			return
		}
	}
	c.above(path)
	c.all = append(c.all, Change{Entry: Entry{Path: path}, Removed: true})
}

// Apply returns the tree that changes make of a tree, as the layers of an image are laid one over another.
func Apply(before Tree, all []Change) Tree {
	gone, changed := map[string]bool{}, map[string]*Entry{}
	for i := range all {
		if one := &all[i]; one.Removed {
			gone[one.Path] = true
		} else {
			changed[one.Path] = &one.Entry
		}
	}
	var out Tree
	hidden := func(path string) bool {
		for at := len(path); at > 0; at = strings.LastIndexByte(path[:at], '/') {
			if e := changed[path[:at]]; gone[path[:at]] || e != nil && at < len(path) && !e.Dir {
				return true
			}
		}
		return false
	}
	i := 0
	for j := range all {
		if all[j].Removed {
			continue
		}
		for ; i < len(before) && Compare(before[i].Path, all[j].Path) < 0; i++ {
			if !hidden(before[i].Path) {
				out = append(out, before[i])
			}
		}
		if i < len(before) && before[i].Path == all[j].Path {
			i++
		}
		out = append(out, all[j].Entry)
	}
	for ; i < len(before); i++ {
		if !hidden(before[i].Path) {
			out = append(out, before[i])
		}
	}
	return out
}

// Equal is whether two trees have the same entries.
func Equal(a, b Tree) bool {
	if len(a) != len(b) {
		return false
	}
	for i := range a {
		if a[i].Path != b[i].Path || !same(&a[i], &b[i]) {
			return false
		}
	}
	return true
}
