package rules

import (
	"errors"
	"fmt"
	"slices"
	"strings"

	"llbm/daemon/internal/persistent"
)

// fails returns why an action fails.
func fails(format string, words ...any) error { return errors.New(fmt.Sprintf(format, words...)) }

// checkParents fails unless all proper prefixes of a path are directories.
func checkParents(root *Node, path []string) error {
	n := root
	for count, name := range path {
		if err := checkDirectory(n, path[:count]); err != nil {
			return err
		}
		n = n.Child(name)
	}
	return nil
}

// checkDirectory fails unless what is at a path is a directory.
func checkDirectory(n *Node, path []string) error {
	switch {
	case n == nil:
		return fails("%s is missing", shown(path))
	case !n.dir:
		return fails("%s is a file", shown(path))
	}
	return nil
}

// A maker makes directories.
type maker struct {
	mode uint32
	by   owner
	like Rules
}

// all returns a tree with a directory and its missing parents. The root is missing after an rm of the empty path.
func (m *maker) all(root *Node, path []string) (*Node, error) { return m.below(root, entry{}, path, 0) }

// below makes what is missing at a prefix of a path and below it; `in` is the directory above.
func (m *maker) below(n *Node, in entry, path []string, count int) (*Node, error) {
	if n == nil {
		n = newNode(made(newDir(m.mode), in, m.by, m.like), persistent.Map[*Node]{})
	} else if !n.dir {
		return nil, fails("%s is a file", shown(path[:count]))
	}
	if count == len(path) {
		return n, nil
	}
	one, err := m.below(n.Child(path[count]), n.entry, path, count+1)
	if err != nil {
		return nil, err
	}
	return n.over(n.below.Put(path[count], one)), nil
}

// above returns the directory in which a path is, whose parents are there; that of the root is nothing.
func above(root *Node, path []string) entry {
	if len(path) == 0 {
		return entry{}
	}
	return root.At(path[:len(path)-1]).entry
}

// shown returns a path for a person.
func shown(path []string) string { return "/" + strings.Join(path, "/") }

// below returns a path with one name more.
func below(path []string, name string) []string { return append(slices.Clip(path), name) }
