package rules

import (
	"context"
	"path"

	"github.com/moby/buildkit/solver/pb"
	"llbm/daemon/internal/persistent"
)

// mkdir returns a tree with a new directory. Rule MkdirOver: without `makeParents`, where a file is nothing changes.
func mkdir(given *pb.FileActionMkDir, base *Node, like Rules) (*Node, error) {
	text, err := follow(given.Path, base, like)
	if err != nil {
		return nil, err
	}
	path, err := readOfMkdir(text, base, like)
	if err != nil || base.At(path).IsDir() {
		return base, err
	}
	m := &maker{modeOfMade(given.Mode, like), ownerOf(given.Owner, like), like}
	if given.MakeParents {
		return m.all(base, path)
	}
	if err := checkParents(base, path); err != nil {
		return nil, err
	}
	if base.At(path) == nil {
		return m.all(base, path)
	}
	if !like.Has(MkdirOver) {
		return nil, fails("%s is a file", shown(path))
	}
	return base, nil
}

// mkfile returns a tree with a new file.
func mkfile(given *pb.FileActionMkFile, base *Node, like Rules) (*Node, error) {
	text, err := followClean(given.Path, base, like)
	if err != nil {
		return nil, err
	}
	path, err := read(text, like)
	if err != nil {
		return nil, err
	}
	old := base.At(path)
	if old.IsDir() {
		return nil, fails("%s is a directory", shown(path))
	}
	if err := checkParents(base, path); err != nil {
		return nil, err
	}
	one := entry{mode: modeOfMade(given.Mode, like), content: contentOf(string(given.Data)), time: Time{int64(len(given.Data)), max(0, given.Timestamp)}}
	by := ownerOf(given.Owner, like)
	switch {
	case old != nil && like.Has(MkfileOver):
		one = writtenOver(old.entry, given.Owner, one, like)
	case old != nil:
		by.of(&one, [2]uint32{}, [2]uint32{}, like)
	default:
		one = made(one, above(base, path), by, like)
	}
	return base.with(path, newNode(one, persistent.Map[*Node]{})), nil
}

// rm returns a tree without what is at or below a path, or below all that match a pattern. Rule RmRoot: an rm of the empty
// path also removes the root.
func rm(ctx context.Context, given *pb.FileActionRm, base *Node, like Rules) (*Node, error) {
	if !given.AllowWildcard && like.Has(RmRoot) && path.Clean(given.Path) == "." {
		return nil, nil
	}
	found, err := foundForRm(ctx, given, base, like)
	if err != nil {
		return nil, err
	}
	if given.AllowWildcard && len(found) == 0 && !given.AllowNotFound && !like.Has(RmNoMatch) {
		return nil, fails("no path matches")
	}
	if found, err = followParents(found, base, given.AllowNotFound, like); err != nil {
		return nil, err
	}
	return removed(base, found, given.AllowNotFound)
}

// removed returns a tree without what is at or below some paths, which may be missing if they are skipped.
func removed(base *Node, found [][]string, skipped bool) (*Node, error) {
	for _, path := range found {
		if len(path) == 0 {
			return nil, fails("the root is not removed")
		}
	}
	left := base
	for _, path := range found {
		if base.At(path) == nil && !skipped {
			return nil, fails("%s is missing", shown(path))
		}
		if left.At(path) != nil {
			left = left.with(path, nil)
		}
	}
	return left, nil
}

// leavesTree is whether the path of an rm without `allowWildcard` leads above the root. BuildKit then removes the directory
// that its snapshots are in.
func leavesTree(rm *pb.FileActionRm) bool {
	return !rm.AllowWildcard && path.Base(path.Clean(rm.Path)) == ".."
}
