package rewriting

import (
	"errors"
	"slices"

	"github.com/moby/buildkit/solver/pb"
	"llbm/daemon/internal/paths"
	"llbm/daemon/internal/rules"
)

// A source is a place from which what is at or below a path is copied: a path in an input or in a result.
type source struct {
	target []string // the path
	index  pb.InputIndex
	path   []string
	mode   int32 // which mode and owner what is copied gets
	owner  *pb.ChownOpt
	sets   bool // whether it gets any
}

var errNoSource = errors.New("a content is not known")

func below(path []string, name string) []string { return append(slices.Clip(path), name) }

// at returns what is at a path in both trees.
func (p pair) at(path []string) pair { return pair{p.here.At(path), p.again.At(path)} }

func (p pair) child(name string) pair { return pair{p.here.Child(name), p.again.Child(name)} }

// changed returns the names of two directories that do not have in both what a third one has.
func (p pair) changed(wanted *rules.Node) []string {
	found := rules.Changed(p.here, wanted)
	if !rules.Equal(p.here, p.again) {
		found = append(found, rules.Changed(p.again, wanted)...)
		slices.Sort(found)
	}
	return slices.Compact(found)
}

func (p pair) are(like func(a, b *rules.Node) bool, wanted *rules.Node) bool {
	return like(p.here, wanted) && like(p.again, wanted)
}

// bridge adds actions until what is at a path is as wanted. Both sets of rules agree on each of them: they remove a path, make a
// directory with its mode and owner, or copy to a path that is missing or a file.
func (c *cursor) bridge(path []string, now pair, wanted *rules.Node) error {
	isDir, isFile := now.here.IsDir() && now.again.IsDir(), now.are(areFiles, wanted)
	switch {
	case now.are(rules.Equal, wanted):
		return nil
	case now.here == nil && now.again == nil, isFile && !now.here.IsLink() && !now.again.IsLink():
		return c.create(path, wanted)
	case wanted == nil:
		return c.remove(path)
	case !isDir || !wanted.IsDir():
		if err := c.remove(path); err != nil {
			return err
		}
		return c.create(path, wanted)
	case len(path) > 0 && !now.are(rules.SameEntry, wanted):
		if err := c.remake(path, now, wanted); err != nil {
			return err
		}
	}
	for _, name := range now.changed(wanted) {
		if err := c.bridge(below(path, name), now.child(name), wanted.Child(name)); err != nil {
			return err
		}
	}
	return nil
}

func areFiles(a, b *rules.Node) bool { return a != nil && b != nil && !a.IsDir() && !b.IsDir() }

func (c *cursor) remove(path []string) error {
	rm := &pb.FileActionRm{Path: paths.Text(path, ""), AllowNotFound: true}
	return c.do(&pb.FileAction{Action: &pb.FileAction_Rm{Rm: rm}}, nothing)
}

// makeDirectory makes a directory with the mode and the owner of another one: by an mkdir, or, where that would get other ones from
// its parent or for the mode, by a copy of the empty tree.
func (c *cursor) makeDirectory(path []string, like *rules.Node) error {
	mode, owner := int32(like.Mode()), chown(like.Owner())
	parent := c.pair(c.at).again.At(path[:len(path)-1])
	if mode&^madeMode == 0 && parent.IsDir() && parent.Mode()&setGroup == 0 {
		mkdir := &pb.FileActionMkDir{Path: paths.Text(path, ""), Mode: mode, Owner: owner, Timestamp: -1}
		return c.do(&pb.FileAction{Action: &pb.FileAction_Mkdir{Mkdir: mkdir}}, nothing)
	}
	return c.do(copyOf(nil, path, mode, owner), nothing)
}

// copyContents copies what is in a directory into another one.
func (c *cursor) copyContents(from source, path []string) error {
	action := copyOf(from.path, path, keptMode, nil)
	if from.sets {
		action = copyOf(from.path, path, from.mode, from.owner)
	}
	action.GetCopy().DirCopyContents = true
	return c.do(action, from.index)
}

// remake makes a directory anew, with another mode or owner, and what is below it as before.
func (c *cursor) remake(path []string, now pair, wanted *rules.Node) error {
	before := c.at
	if err := c.remove(path); err != nil {
		return err
	}
	if err := c.makeDirectory(path, wanted); err != nil || len(now.here.Names())+len(now.again.Names()) == 0 {
		return err
	}
	return c.copyContents(source{index: before, path: path}, path)
}

// sourcesOf returns the places from which what is at a path may be copied, the likeliest first.
func (c *cursor) sourcesOf(path []string) []source {
	var found []source
	for _, one := range slices.Backward(c.from) {
		if len(one.target) <= len(path) && slices.Equal(one.target, path[:len(one.target)]) {
			one.path = append(slices.Clip(one.path), path[len(one.target):]...)
			found = append(found, one)
			if one.sets {
				one.sets = false
				found = append(found, one)
			}
		}
	}
	return found
}

// create makes what is at a path, which is missing, or a file that a file replaces.
func (c *cursor) create(path []string, wanted *rules.Node) error {
	sources := c.sourcesOf(path)
	for _, one := range sources {
		if c.pair(one.index).at(one.path).are(c.gives(one), wanted) {
			action := copyOf(one.path, path, keptMode, nil)
			if one.sets {
				action = copyOf(one.path, path, one.mode, one.owner)
			}
			return c.do(action, one.index)
		}
	}
	if wanted.IsDir() {
		return c.createDirectory(path, wanted, sources)
	}
	for _, one := range sources {
		if c.pair(one.index).at(one.path).are(rules.SameContent, wanted) {
			return c.do(copyOf(one.path, path, int32(wanted.Mode()), chown(wanted.Owner())), one.index)
		}
	}
	return errNoSource
}

// createDirectory makes a directory, copies into it what is in the source that has most of it, and then bridges the rest.
func (c *cursor) createDirectory(path []string, wanted *rules.Node, sources []source) error {
	if err := c.makeDirectory(path, wanted); err != nil {
		return err
	}
	most, best := 0, source{}
	for _, one := range sources {
		from, right, gives := c.pair(one.index).at(one.path), 0, c.gives(one)
		for _, name := range from.here.Names() {
			if from.child(name).are(gives, wanted.Child(name)) {
				right++
			}
		}
		if right > most && 2*right > len(from.here.Names()) {
			most, best = right, one
		}
	}
	if most > 0 {
		if err := c.copyContents(best, path); err != nil {
			return err
		}
	}
	now := c.pair(c.at).at(path)
	for _, name := range now.changed(wanted) {
		if err := c.bridge(below(path, name), now.child(name), wanted.Child(name)); err != nil {
			return err
		}
	}
	return nil
}

// gives returns whether a copy of a node from a source is as wanted. What trees have many times is compared once.
func (c *cursor) gives(s source) func(from, wanted *rules.Node) bool {
	if !s.sets {
		return func(from, wanted *rules.Node) bool { return from != nil && rules.Equal(from, wanted) }
	}
	var compare func(from, wanted *rules.Node) bool
	compare = func(from, wanted *rules.Node) bool {
		if from == nil || wanted == nil {
			return false
		}
		key := [2]*rules.Node{from, wanted}
		same, known := c.compared[key]
		if !known {
			same = s.sameEntry(from, wanted) && len(from.Names()) == len(wanted.Names())
			for _, name := range from.Names() {
				same = same && compare(from.Child(name), wanted.Child(name))
			}
			c.compared[key] = same
		}
		return same
	}
	return compare
}

// sameEntry is whether a copy of a node, without what is below it, gets the mode, the owner and the content of another one.
func (s source) sameEntry(from, wanted *rules.Node) bool {
	if from.IsDir() != wanted.IsDir() || !from.IsDir() && !rules.SameContent(from, wanted) {
		return false
	}
	mode := from.Mode()
	if s.mode != keptMode {
		mode = uint32(s.mode) & modeBits
	}
	user, group := from.Owner()
	if s.owner != nil {
		user, group, _ = ownerOf(s.owner)
	}
	wantedUser, wantedGroup := wanted.Owner()
	return mode == wanted.Mode() && user == wantedUser && group == wantedGroup
}
