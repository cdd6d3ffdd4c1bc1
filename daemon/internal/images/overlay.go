package images

import (
	"archive/tar"
	"fmt"
	"slices"
	"strings"

	"llbm/daemon/internal/contents"
	"llbm/daemon/internal/paths"
)

// What an entry of a layer removes, by its name: `.wh.NAME` the path NAME beside it, and opaque all of its directory that lower
// layers have. Other names that begin with noted are notes of a file system.
const (
	whiteout = ".wh."
	noted    = ".wh..wh."
	opaque   = ".wh..wh..opq"
)

// mostFollowed bounds the links on the way to an entry, and mostDeep the directories.
const (
	mostFollowed = 255
	mostDeep     = 2 * paths.MostNames
	// mostOwn is how many paths of one kind a warning has.
	mostOwn = 10
)

// An item is an entry of a layer. Its names by hard links share it.
type item struct {
	header  *tar.Header
	content contents.Ref
}

func (i *item) is(kind byte) bool { return i.header.Typeflag == kind }

// A node is what is at a path: its item, the number of the layer that it is from, and what is below it.
type node struct {
	item  *item
	layer int
	below map[string]*node
}

// An overlay is the tree of an image, up to the layer that is being laid, by the rules of llbm-tools tree from image.
type overlay struct {
	layer int
	root  *node
	own   []string // paths that a layer removes after its own entry for them, up to a bound
}

func newOverlay() *overlay { return &overlay{root: &node{item: implied(), below: map[string]*node{}}} }

// implied is the item of a directory of which no layer has an entry.
func implied() *item { return &item{header: &tar.Header{Typeflag: tar.TypeDir, Mode: 0o755}} }

// namesOf returns the names of a path in a layer.
func namesOf(text string) []string {
	return slices.DeleteFunc(strings.Split(text, "/"), func(name string) bool { return name == "" || name == "." })
}

// put applies an entry of the layer.
func (o *overlay) put(i *item) error {
	names := namesOf(i.header.Name)
	if slices.Contains(names, "..") || len(names) > paths.MostNames {
		return fmt.Errorf("%.80q is no path of a tree", i.header.Name)
	}
	if len(names) == 0 {
		if !i.is(tar.TypeDir) {
			return fmt.Errorf("the root of a layer is no directory")
		}
		o.root.item = i
		return nil
	}
	parent, last := names[:len(names)-1], names[len(names)-1]
	switch {
	case last == opaque:
		return o.clear(parent)
	case strings.HasPrefix(last, whiteout) && !strings.HasPrefix(last, noted):
		return o.remove(parent, strings.TrimPrefix(last, whiteout))
	case slices.ContainsFunc(names, func(name string) bool { return strings.HasPrefix(name, noted) }):
		return nil
	}
	return o.add(parent, last, i)
}

// clear removes what lower layers have in a directory.
func (o *overlay) clear(names []string) error {
	at, err := o.directory(names, false)
	if at != nil {
		o.keepNewer(at)
	}
	return err
}

// remove removes what lower layers have at a path.
func (o *overlay) remove(parent []string, name string) error {
	at, err := o.directory(parent, false)
	if at == nil || at.below[name] == nil {
		return err
	}
	if !o.isKept(at.below[name]) {
		delete(at.below, name)
	} else if len(o.own) < mostOwn {
		o.own = append(o.own, "/"+strings.Join(append(slices.Clip(parent), name), "/"))
	}
	return nil
}

// keepNewer removes what lower layers have below a node.
func (o *overlay) keepNewer(at *node) {
	for name, below := range at.below {
		if !o.isKept(below) {
			delete(at.below, name)
		}
	}
}

// isKept is whether this layer has a node, or any below it; what lower layers have below it is removed.
func (o *overlay) isKept(at *node) bool {
	o.keepNewer(at)
	return at.layer == o.layer || len(at.below) > 0
}

// add puts an entry at its path.
func (o *overlay) add(parent []string, name string, i *item) error {
	if i.is(tar.TypeLink) {
		target, err := o.linked(namesOf(i.header.Linkname))
		if err != nil {
			return err
		}
		if target == nil {
			return fmt.Errorf("%.80q is a link to %.80q, which is no file that is there", i.header.Name, i.header.Linkname)
		}
		i = target
	}
	at, err := o.directory(parent, true)
	if err != nil {
		return err
	}
	before := at.below[name]
	added := &node{item: i, layer: o.layer}
	if at.below[name] = added; !i.is(tar.TypeDir) {
		return nil
	}
	if added.below = map[string]*node{}; before != nil && before.below != nil {
		added.below = before.below
	}
	return nil
}

// linked returns the item that a hard link leads to, or nil.
func (o *overlay) linked(names []string) (*item, error) {
	if len(names) == 0 {
		return nil, nil
	}
	at, err := o.directory(names[:len(names)-1], false)
	if at == nil || err != nil {
		return nil, err
	}
	found := at.below[names[len(names)-1]]
	if found == nil || found.item.is(tar.TypeDir) {
		return nil, nil
	}
	return found.item, nil
}

// directory returns the directory that a path leads to, also by symbolic links, from the root of the image. If there is none it is
// nil, or made.
func (o *overlay) directory(names []string, isMade bool) (*node, error) {
	opened, left, links := []*node{o.root}, slices.Clone(names), 0
	for len(left) > 0 {
		name := left[0]
		left = left[1:]
		if name == ".." {
			opened = opened[:max(1, len(opened)-1)]
			continue
		}
		at := opened[len(opened)-1]
		next := at.below[name]
		if next == nil && isMade {
			next = &node{item: implied(), layer: o.layer, below: map[string]*node{}}
			at.below[name] = next
		}
		switch {
		case next != nil && next.item.is(tar.TypeSymlink):
			links++
			if strings.HasPrefix(next.item.header.Linkname, "/") {
				opened = opened[:1]
			}
			left = append(namesOf(next.item.header.Linkname), left...)
		case next != nil && next.below != nil:
			opened = append(opened, next)
		case isMade:
			return nil, fmt.Errorf("a file with entries below it: /%.200s", strings.Join(names, "/"))
		default:
			return nil, nil
		}
		if links > mostFollowed || len(opened) > mostDeep || len(left) > mostDeep {
			return nil, fmt.Errorf("too many links or names on the way: /%.200s", strings.Join(names, "/"))
		}
	}
	return opened[len(opened)-1], nil
}
