// Package views says where the paths of an execution lead, with the symbolic links on them: the dests of its mounts, its working directory,
// and the words of its calls. A kernel follows such links, and llbm does not; so a path is replaced by the one to which it leads.
package views

import (
	"errors"
	"path"
	"slices"
	"strings"

	"llbm/daemon/internal/links"
	"llbm/daemon/internal/paths"
	"llbm/daemon/internal/rules"
)

// errLost is that where a path leads can't be said, or depends on more than on the trees.
var errLost = errors.New("where the path leads is not known")

// A kind is what is at a path.
type kind int

const (
	missing kind = iota
	file
	directory
	link
	unknown // not known; no link that is known is there
	lost    // a link, or what a call makes of its place
)

// A mounted is a mount with its paths as names.
type mounted struct {
	dest, selector []string
	tree           *rules.Node // nil if it is not known
	isCache        bool        // whether more may be there than in the tree
}

// A view has the mounts of an execution, and what calls made and removed. Calls make no links.
type view struct {
	mounts    []mounted
	changed   map[string]kind
	isCertain bool // whether a call is only done if all before it did what they have to do
}

// on returns the mount that a path is in, or nil.
func (v *view) on(names []string) *mounted {
	var in *mounted
	for i := range v.mounts {
		one := &v.mounts[i]
		if isPrefix(one.dest, names) && (in == nil || len(one.dest) > len(in.dest)) {
			in = one
		}
	}
	return in
}

func isPrefix(some, names []string) bool {
	return len(some) <= len(names) && slices.Equal(some, names[:len(some)])
}

// before returns what is at a path before the first call, and the target of a link.
func (v *view) before(in *mounted, names []string) (kind, string) {
	if in == nil {
		return missing, ""
	}
	if in.tree == nil {
		return unknown, ""
	}
	at := in.tree.At(append(slices.Clone(in.selector), names[len(in.dest):]...))
	switch {
	case at.IsLink():
		return link, at.Linkname()
	case at.IsDir() || slices.ContainsFunc(v.mounts, func(one mounted) bool { return isPrefix(names, one.dest) }):
		return directory, ""
	case at != nil:
		return file, ""
	case in.isCache:
		return unknown, ""
	}
	return missing, ""
}

// at returns what is at a path, and the target of a link. What a call did above a mount is not done to the mount.
func (v *view) at(names []string) (kind, string) {
	in := v.on(names)
	was, target := v.before(in, names)
	for count := len(names); in != nil && count > len(in.dest); count-- {
		is, isChanged := v.changed[paths.Text(names[:count], "")]
		switch {
		case !isChanged:
			continue
		case !v.isCertain && was == link:
			return lost, ""
		case !v.isCertain:
			return unknown, ""
		case count == len(names):
			return is, ""
		}
		return missing, ""
	}
	return was, target
}

// made notes what a call made at a path, unless it is there.
func (v *view) made(names []string, is kind) {
	if was, _ := v.at(names); was != is {
		v.changed[paths.Text(names, "")] = is
	}
}

// removed notes that nothing is at a path or below it.
func (v *view) removed(names []string) {
	at := paths.Text(names, "")
	for one := range v.changed {
		if v.isCertain && strings.HasPrefix(one, at+"/") {
			delete(v.changed, one)
		}
	}
	v.changed[at] = missing
}

// A way is where a path leads.
type way struct {
	names []string
	kind  kind
	first string     // the first link that was followed, or ""
	links [][]string // all that were followed
	// dangling has the path up to the link, and what comes after it, if the link on it leads nowhere.
	dangling []string
}

// follow returns where a text leads from a directory, as a kernel finds it: name by name, also the last one if that is asked for. What
// is missing is no link, and neither is what is below it.
func (v *view) follow(from []string, text string, isLast bool) (way, error) {
	w := walker{view: v, now: slices.Clone(from), isLast: isLast, way: way{kind: directory}}
	if strings.HasPrefix(text, "/") {
		w.now = nil
	}
	w.real = len(w.now)
	w.todo = strings.Split(text, "/")
	w.given = len(w.todo)
	for len(w.todo) > 0 {
		if err := w.step(); err != nil {
			return w.way, err
		}
	}
	w.names = w.now
	if !isLast && w.kind == link && (strings.HasSuffix(text, "/") || strings.HasSuffix(text, "/.")) {
		return w.way, w.lose(w.now) // commands do not agree on it
	}
	return w.way, nil
}

// A walker follows a path.
type walker struct {
	way
	view   *view
	isLast bool
	now    []string
	todo   []string
	given  int      // how many of these are of the text itself, and not of a target
	outer  []string // the last link that the text itself names, where it is
	real   int      // how many of the names so far are surely directories
	isLost bool     // whether a `..` came after what is no directory, where a kernel fails, and llbm does not
	count  int
}

// step takes the next name.
func (w *walker) step() error {
	name, isTargets := w.todo[0], len(w.todo) > w.given
	w.todo = w.todo[1:]
	w.given = min(w.given, len(w.todo))
	switch name {
	case "", ".":
		return nil
	case "..":
		w.isLost = w.isLost || len(w.now) > w.real
		if w.isLost && w.first != "" {
			return errLost
		}
		w.now = w.now[:max(0, len(w.now)-1)]
		w.real, w.kind = min(w.real, len(w.now)), directory
		return nil
	}
	next := append(slices.Clone(w.now), name)
	is, target := w.view.at(next)
	w.kind = is
	switch {
	case is == lost:
		return w.lose(next)
	case is == link && (w.isLast || !isDone(w.todo)):
		if !isTargets {
			w.outer = next
		}
		return w.through(next, target)
	case is == directory && w.real == len(w.now):
		w.real++
	case is == missing && isTargets && w.dangling == nil:
		w.dangling = append(slices.Clone(w.outer), w.todo[len(w.todo)-w.given:]...)
	}
	w.now = next
	return nil
}

// lose gives a path up, at a link.
func (w *walker) lose(at []string) error {
	if w.first == "" {
		w.first = paths.Text(at, "")
	}
	return errLost
}

// isDone is whether no name is left.
func isDone(todo []string) bool {
	return !slices.ContainsFunc(todo, func(one string) bool { return one != "" && one != "." })
}

// through follows a link.
func (w *walker) through(at []string, target string) error {
	if w.count++; w.isLost || w.count > links.MostOfKernel {
		return w.lose(at)
	}
	if w.first == "" {
		w.first = paths.Text(at, "")
	}
	w.way.links = append(w.way.links, at)
	if path.IsAbs(target) {
		w.now, w.real = nil, 0
	}
	w.todo = append(strings.Split(target, "/"), w.todo...)
	w.kind = directory
	return nil
}
