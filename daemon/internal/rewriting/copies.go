package rewriting

import (
	"strings"

	"github.com/moby/buildkit/solver/pb"
	"llbm/daemon/internal/paths"
	"llbm/daemon/internal/rules"
)

// write adds an mkfile with the mode and the owner that the file is to have.
func (c *cursor) write(given *pb.FileActionMkFile, wanted *rules.Node) error {
	path, err := rules.Follow(given.Path, c.pair(c.at).again)
	if err != nil {
		return err
	}
	one := wanted.At(path)
	if one == nil || one.IsDir() {
		return errNoSource
	}
	mode, owner := int32(one.Mode()), chown(one.Owner())
	mkfile := &pb.FileActionMkFile{Path: paths.Text(path, ""), Mode: mode, Owner: owner, Data: given.Data, Timestamp: given.Timestamp}
	if mode&^madeMode == 0 {
		if c.here().At(path) != nil {
			if err := c.remove(path); err != nil {
				return err
			}
		}
		return c.do(&pb.FileAction{Action: &pb.FileAction_Mkfile{Mkfile: mkfile}}, nothing)
	}
	base := c.at
	aside := []string{"file"}
	mkfile.Path, mkfile.Mode = paths.Text(aside, ""), mode&madeMode
	c.at = nothing
	if err := c.do(&pb.FileAction{Action: &pb.FileAction_Mkfile{Mkfile: mkfile}}, nothing); err != nil {
		return err
	}
	made := c.at
	c.at = base
	action := copyOf(aside, path, mode, owner)
	action.GetCopy().Timestamp = given.Timestamp
	return c.do(action, made)
}

// copies adds a copy of each source by its path to the path that BuildKit copies it to, and before them the directories that
// BuildKit makes.
func (c *cursor) copies(given *pb.FileActionCopy, wanted *rules.Node) error {
	second := c.pair(c.second).here
	sources, err := rules.Sources(c.ctx, given, second, rules.All)
	if err != nil { // nothing matches, and this is allowed
		return nil
	}
	owner := given.Owner
	if user, group, ok := ownerOf(owner); ok {
		owner = chown(known(user), known(group))
	}
	for _, one := range sources {
		if err := c.copyOne(given, one, second.At(one.Path), owner, wanted); err != nil {
			return err
		}
	}
	return nil
}

// known is the number that a new entry has in BuildKit.
func known(number uint32) uint32 {
	if number == unchanged {
		return 0
	}
	return number
}

// copyOne adds the copy of one source.
func (c *cursor) copyOne(given *pb.FileActionCopy, one rules.Source, from *rules.Node, owner *pb.ChownOpt, wanted *rules.Node) error {
	dest, err := from.Dest(given.Dest, c.pair(c.at).again)
	if err != nil {
		return err
	}
	path := one.Path
	if len(given.IncludePatterns) > 0 && from.IsDir() { // a small part of it is wanted
		c.from = append(c.from, source{c.targetOf(given, dest, one, from), c.second, path, given.Mode, owner, true})
		return nil
	}
	isDirectory := strings.HasSuffix(given.Dest, "/") || strings.HasSuffix(given.Dest, "/.")
	contents := from.IsDir() && given.DirCopyContents
	parents := dest
	if !isDirectory && !contents {
		parents = dest[:max(0, len(dest)-1)]
	}
	if err := c.makeParents(parents, wanted); err != nil {
		return err
	}
	target := c.targetOf(given, dest, one, from)
	action := copyOf(path, target, given.Mode, owner)
	action.GetCopy().DirCopyContents = from.IsDir() && c.here().At(target).IsDir()
	action.GetCopy().Timestamp = given.Timestamp
	c.from = append(c.from, source{target, c.second, path, given.Mode, owner, true})
	err = c.do(action, c.second)
	if err != nil && (len(given.ExcludePatterns) > 0 || from.IsUnpacked()) && c.ctx.Err() == nil {
		return nil // what is excluded, or replaced, may be in the way, so it is copied piece by piece
	}
	return err
}

// targetOf returns where a source is copied to, once the directories above are there.
func (c *cursor) targetOf(given *pb.FileActionCopy, dest []string, one rules.Source, from *rules.Node) []string {
	contents := from.IsDir() && given.DirCopyContents
	hasName := one.Name != "" && (given.AllowWildcard || !strings.HasSuffix(given.Src, "/."))
	isDirectory := strings.HasSuffix(given.Dest, "/") && len(given.IncludePatterns) > 0
	if !contents && hasName && (isDirectory || c.here().At(dest).IsDir()) {
		return below(dest, one.Name)
	}
	return dest
}

// makeParents makes the directories at and above a path that are missing, as they are wanted.
func (c *cursor) makeParents(path []string, wanted *rules.Node) error {
	for count := range path {
		one := path[:count+1]
		if c.here().At(one) != nil {
			continue
		}
		like := wanted.At(one)
		if !like.IsDir() {
			return errNoSource
		}
		if err := c.makeDirectory(one, like); err != nil {
			return err
		}
	}
	return nil
}
