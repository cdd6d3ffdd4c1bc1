package images

import (
	"archive/tar"
	"context"
	"errors"
	"fmt"
	"io"
	"maps"
	"path"
	"slices"
	"strings"

	"google.golang.org/grpc/status"
	"llbm/daemon/internal/archives"
	"llbm/daemon/internal/contents"
	"llbm/daemon/internal/paths"
	"llbm/daemon/internal/sources"
)

// setGroup is the bit of a directory's mode by which what is made in it gets its group.
const setGroup = 0o2000

// A Folder is a directory of the source that an archive unpacks to: what it has is what the archive has in a directory for which it has
// no entry of its own, or in that to which it is unpacked.
type Folder struct {
	Name string
	Path string // of the directory in the archive
	// Own is whether the archive has an entry for it, whose mode and owner it has, and Late are the paths below it of directories
	// whose entries come after others in them.
	Own  bool
	Late []string
}

// Depth returns how many directories lead to what the folder has, with the one to which the archive is unpacked.
func (f Folder) Depth() int { return len(paths.Names(f.Path)) + 1 }

// Archive reads what an ADD unpacks of an archive into a store, by the rules of BuildKit: an entry replaces one before it, an owner and
// a mode are those of the entry, and a name of a whiteout is a name like any other. The caller has to drop the manifest.
func Archive(ctx context.Context, store *contents.Store, from io.Reader, options sources.Options) (*sources.Manifest, []Folder, error) {
	pack, err := store.NewPack()
	if err != nil {
		return nil, nil, err
	}
	a := &addition{directories: map[string]bool{}, late: map[*node]bool{}, made: map[*node]int{}}
	a.begin()
	u := &unpacker{ctx: ctx, pack: pack, put: a.put, options: options, left: mostUnpacked}
	manifest, err := sources.Collect(pack, options, func(add sources.Add) error {
		err := u.archive(from)
		if err == nil {
			err = a.check()
		}
		if err != nil {
			return wrappedAs(options.What, err)
		}
		return a.entries(add)
	})
	return manifest, a.folders, err
}

// archive takes all entries of an archive.
func (u *unpacker) archive(from io.Reader) error {
	plain, err := archives.Open(from)
	if err != nil {
		return err
	}
	entries := tar.NewReader(&limited{from: plain, u: u})
	for {
		h, err := entries.Next()
		if errors.Is(err, io.EOF) {
			return nil
		}
		if err == nil {
			err = u.entry(h, entries)
		}
		if err != nil {
			return err
		}
	}
}

// An addition is what an ADD unpacks, in parts that are laid one over another: as long as the order of the entries does not matter they are in
// one part. A node without an item is a directory for which there is no entry.
type addition struct {
	parts       []*node
	directories map[string]bool // the paths of directories that have entries
	late        map[*node]bool  // the directories whose entries came after others in them
	made        map[*node]int   // the directories without entries, by their order
	folders     []Folder
}

// begin begins a part.
func (a *addition) begin() { a.parts = append(a.parts, &node{below: map[string]*node{}}) }

// put does an entry, after those before it. What would depend on what is at the place to which the archive is unpacked is refused.
func (a *addition) put(i *item) error {
	names := namesOf(path.Join("/", i.header.Name)) // above the directory to which it is unpacked there is nothing
	switch {
	case len(names) > paths.MostNames:
		return fmt.Errorf("%.80q is no path of a tree", i.header.Name)
	case len(names) == 0 && i.is(tar.TypeDir) && path.Clean(i.header.Name) == ".":
		return nil
	case len(names) == 0 && !i.is(tar.TypeDir):
		return fmt.Errorf("%.80q is the directory to which the archive is unpacked", i.header.Name)
	case len(names) == 0:
		if part := a.parts[len(a.parts)-1]; part.handsDown(i) {
			a.begin()
		}
		a.parts[len(a.parts)-1].item = i
		return nil
	}
	if i.is(tar.TypeLink) {
		var err error
		if i, err = a.linked(i, names); err != nil {
			return err
		}
	}
	if i.is(tar.TypeDir) {
		a.directories[strings.Join(names, "/")] = true
	}
	isIn, err := a.putInto(a.parts[len(a.parts)-1], names, i)
	if err == nil && !isIn {
		a.begin()
		_, err = a.putInto(a.parts[len(a.parts)-1], names, i)
	}
	return err
}

// putInto does an entry in a part, unless it has to be in one after it.
func (a *addition) putInto(part *node, names []string, i *item) (bool, error) {
	last := len(names) - 1
	at, err := a.directory(part, names[:last])
	if at == nil || err != nil {
		return false, err
	}
	before, isDir := at.below[names[last]], i.is(tar.TypeDir)
	switch {
	case before == nil && isDir:
		at.below[names[last]] = &node{item: i, below: map[string]*node{}}
	case !isDir && (before == nil || before.below == nil):
		at.below[names[last]] = &node{item: i}
	case !isDir || before.below == nil || before.handsDown(i):
		return false, nil
	default:
		if before.item == nil {
			a.late[before] = true
		}
		before.item = i
	}
	return true, nil
}

// handsDown is whether a directory had another set-group bit, or may have had, than by a new entry, as directories were made in it that have no
// entries.
func (n *node) handsDown(i *item) bool {
	if n.item != nil && (n.item.header.Mode^i.header.Mode)&setGroup == 0 {
		return false
	}
	for _, one := range n.below {
		if one.item == nil {
			return true
		}
	}
	return false
}

// directory returns a directory of a part, which is made if there is none; nil if a symbolic link leads to it.
func (a *addition) directory(at *node, names []string) (*node, error) {
	for count, name := range names {
		next := at.below[name]
		switch {
		case next == nil:
			next = &node{below: map[string]*node{}}
			at.below[name], a.made[next] = next, len(a.made)
		case next.below == nil && next.item.is(tar.TypeSymlink):
			return nil, nil
		case next.below == nil:
			return nil, fmt.Errorf("a file with entries below it: /%.200s", strings.Join(names[:count+1], "/"))
		}
		at = next
	}
	return at, nil
}

// at returns what the archive has at a path so far, or nil.
func (a *addition) at(names []string) *node {
	for _, at := range slices.Backward(a.parts) {
		for _, name := range names {
			if at.below == nil {
				return nil // it is below a file
			}
			if at = at.below[name]; at == nil {
				break
			}
		}
		if at != nil {
			return at
		}
	}
	return nil
}

// leadsTo returns what is where a path leads by symbolic links of the archive, and its path; nil if the archive has nothing there.
func (a *addition) leadsTo(names []string, isFollowed bool) (*node, []string) {
	var now []string
	at, links := &node{below: map[string]*node{}}, 0
	for todo := slices.Clone(names); len(todo) > 0; {
		name := todo[0]
		todo = todo[1:]
		if name == ".." {
			now = now[:max(0, len(now)-1)]
			continue
		}
		now = append(now, name)
		if at = a.at(now); at == nil {
			return nil, nil
		}
		if at.item == nil || !at.item.is(tar.TypeSymlink) || len(todo) == 0 && !isFollowed {
			continue
		}
		if links++; links > mostFollowed {
			return nil, nil
		}
		if now = now[:len(now)-1]; path.IsAbs(at.item.header.Linkname) {
			now = nil
		}
		todo = append(namesOf(at.item.header.Linkname), todo...)
	}
	return at, now
}

// linked returns the item of a file that gets another name, with its owner and its mode. What the name has is removed before.
func (a *addition) linked(i *item, names []string) (*item, error) {
	at, target := a.leadsTo(namesOf(path.Join("/", i.header.Linkname)), false)
	if at == nil || at.below != nil || len(target) >= len(names) && slices.Equal(target[:len(names)], names) {
		return nil, fmt.Errorf("%.80q is a link to %.80q, which is no file of the archive", i.header.Name, i.header.Linkname)
	}
	h := at.item.header
	h.Uid, h.Gid, h.Mode = i.header.Uid, i.header.Gid, i.header.Mode
	return at.item, nil
}

// check refuses an archive if a directory is not there once all is unpacked, nor what a link in its place leads to: BuildKit sets the times of
// directories then. Where a link leads to what the archive has not, it may be there before.
func (a *addition) check() error {
	for _, text := range slices.Sorted(maps.Keys(a.directories)) {
		if found, _ := a.leadsTo(namesOf(text), true); found == nil {
			return fmt.Errorf("the directory /%.200s is replaced by a later entry", text)
		}
	}
	return nil
}

// entries hands on all entries in path order, part by part and folder by folder.
func (a *addition) entries(add sources.Add) error {
	first := map[*item]string{}
	for _, part := range a.parts {
		todo := []step{{"", part}}
		for len(todo) > 0 {
			further, err := a.folder(todo[0], first, add)
			if err != nil {
				return err
			}
			todo = append(todo[1:], further...)
		}
	}
	return nil
}

// A step is a directory without an entry, and its path in the archive.
type step struct {
	path string
	node *node
}

// folder hands on the entries of a folder, and returns the directories in it that are folders of their own.
func (a *addition) folder(of step, first map[*item]string, add sources.Add) (further []step, err error) {
	folder := Folder{Name: fmt.Sprintf("%06d", len(a.folders)), Path: of.path, Own: of.node.item != nil}
	own := of.node.item
	if own == nil {
		own = implied()
	}
	if err := add(statOf(folder.Name, own, first), contents.Ref{}); err != nil {
		return nil, err
	}
	var below func(at string, n *node) error
	below = func(at string, n *node) error {
		for _, name := range slices.Sorted(maps.Keys(n.below)) {
			one, inside := n.below[name], path.Join(at, name)
			if one.item == nil {
				further = append(further, step{path.Join(of.path, inside), one})
				continue
			}
			if a.late[one] {
				folder.Late = append(folder.Late, inside)
			}
			if err := add(statOf(path.Join(folder.Name, inside), one.item, first), one.item.content); err != nil {
				return folder.unnamed(err)
			}
			if err := below(inside, one); err != nil {
				return err
			}
		}
		return nil
	}
	err = below("", of.node)
	a.folders = append(a.folders, folder)
	slices.SortFunc(further, func(one, other step) int { return a.made[one.node] - a.made[other.node] }) // links may lead from one to another
	return further, err
}

// unnamed returns an error of an entry by the entry's path in the archive.
func (f Folder) unnamed(err error) error {
	one := status.Convert(err)
	return status.Errorf(one.Code(), "%s", strings.Replace(one.Message(), f.Name+"/", strings.TrimSuffix(path.Join("/", f.Path), "/")+"/", 1))
}
