package rules

import (
	"context"
	"strings"

	"github.com/moby/buildkit/solver/pb"
	"llbm/daemon/internal/persistent"
)

// A copier copies into a tree.
type copier struct {
	ctx   context.Context
	given *pb.FileActionCopy
	from  *Node
	into  *Node
	like  Rules
	by    owner
	dest  []string
	// folder is that of the only source, if an archive is unpacked.
	folder Folder
	laid   map[laying]*Node
	// filter has the patterns by which only a part is copied, or nil.
	filter *filter
	// grafted has, by the path of what was put into the tree as it is, the path where it was.
	grafted map[string]string
}

// A laying is what the result of a copy depends on, besides the action: what is there, what is copied, and the directory that
// it is copied into. A tree that has itself many times is copied once.
type laying struct {
	old, from persistent.Sum
	setGroup  bool
	group     uint32
	isSource  bool
}

// copied returns a tree with what is copied from a second one. Rule EmptyCopy: without `createDestPath` the parents of dest
// have to be there even if nothing is copied.
func copied(ctx context.Context, given *pb.FileActionCopy, base, second *Node, like Rules) (*copier, error) {
	sources, err := Sources(ctx, given, second, like)
	if err != nil {
		return nil, err
	}
	c := &copier{ctx: ctx, given: given, from: second, into: base, like: like, by: ownerOf(given.Owner, like)}
	c.laid, c.grafted = map[laying]*Node{}, map[string]string{}
	if len(sources) == 1 {
		c.folder = second.At(sources[0].Path).folder
	}
	if given.CreateDestPath && len(sources) == 0 {
		_, err = read(given.Dest, like) // no link is followed for nothing
		return c, err
	}
	if err := c.readDest(); err != nil {
		return nil, err
	}
	if !given.CreateDestPath && (len(sources) > 0 || like.Has(EmptyCopy)) && len(c.dest) > 0 {
		if err := checkParents(c.into, c.dest); err != nil {
			return nil, err
		}
	}
	for _, source := range sources {
		if given.AttemptUnpackDockerCompatibility && second.At(source.Path).isArchive() {
			return nil, ErrUnpacks
		}
		if err := c.copySource(source); err != nil {
			return nil, err
		}
	}
	return c, nil
}

// readDest reads where the action copies to.
func (c *copier) readDest() (err error) {
	if c.folder.isUnpacked() && c.like&Followed != 0 && c.into.HasLinks() {
		c.dest, err = c.folder.destOf(c.given.Dest, c.into, c.like)
		return err
	}
	text, err := followClean(c.given.Dest, c.into, c.like)
	if err != nil {
		return err
	}
	c.dest, err = read(text, c.like)
	return err
}

// A Source is what a copy copies: where it is, and the last name of the path that the copy names, if it has one.
type Source struct {
	Path []string
	Name string
}

// Sources returns what a copy copies, in order.
func Sources(ctx context.Context, given *pb.FileActionCopy, second *Node, like Rules) ([]Source, error) {
	found, err := pathsOfSources(ctx, given, second, like)
	if err != nil {
		return nil, err
	}
	var sources []Source
	for _, path := range found {
		one := Source{Path: path}
		if len(path) > 0 {
			one.Name = path[len(path)-1]
		}
		if one.Path, err = followSource(path, given.FollowSymlink, second, like); err != nil {
			return nil, err
		}
		if second.At(one.Path) == nil {
			return nil, fails("%s is missing", shown(one.Path))
		}
		sources = append(sources, one)
	}
	return sources, nil
}

func pathsOfSources(ctx context.Context, given *pb.FileActionCopy, second *Node, like Rules) ([][]string, error) {
	if given.AllowWildcard {
		return foundForCopy(ctx, given, second, like)
	}
	source, err := read(given.Src, like)
	return [][]string{source}, err
}

// makeParents makes a directory and its missing parents. Rule ParentOwner: they get the owner of the action.
func (c *copier) makeParents(path []string) (err error) {
	m := maker{mode: newMode, by: noOwner, like: c.like}
	if c.like.Has(ParentOwner) {
		m.by = c.by
	}
	if c.folder.isUnpacked() {
		m.by = owner{0, 0} // whatever the group of the directory is
	}
	into, err := m.all(c.into, path)
	if err == nil {
		c.into = into
	}
	return err
}

// makeDirectories does the same, but without `createDestPath` the parents have to be there.
func (c *copier) makeDirectories(path []string) error {
	if !c.given.CreateDestPath {
		if err := checkParents(c.into, path); err != nil {
			return err
		}
	}
	return c.makeParents(path)
}

// makesDest is whether a missing dest is made. Rules DestSlash and DestDot: one that ends in `/` or `/.` is a directory.
func (c *copier) makesDest() bool {
	dest := c.given.Dest
	return c.like.Has(DestSlash) && strings.HasSuffix(dest, "/") || c.like.Has(DestDot) && strings.HasSuffix(dest, "/.")
}

// nameOf returns the name of what is copied, as a path. Rule SourceDot: what is copied from a text that ends in `/.` has none.
func (c *copier) nameOf(source Source) []string {
	dot := strings.HasSuffix(c.given.Src, "/.") && !c.given.AllowWildcard
	if source.Name == "" || dot && c.like.Has(SourceDot) {
		return nil
	}
	return []string{source.Name}
}

// targetOf returns where a source is copied to.
func (c *copier) targetOf(source Source) ([]string, error) {
	dir, dest := c.from.At(source.Path).IsDir(), c.into.At(c.dest)
	if dir && c.given.DirCopyContents {
		return c.dest, nil
	}
	if dir && dest != nil && !dest.dir {
		return nil, fails("%s is a file", shown(c.dest))
	}
	if strings.HasSuffix(c.given.Dest, "/") || dest.IsDir() {
		return append(append([]string{}, c.dest...), c.nameOf(source)...), nil
	}
	return c.dest, nil
}

// copySource copies a source. Rule ContentsTarget: with `dirCopyContents` a missing target is made as parents are.
func (c *copier) copySource(source Source) error {
	if err := c.ctx.Err(); err != nil {
		return err
	}
	if err := c.readDest(); err != nil { // a source before may have put a link there
		return err
	}
	if c.makesDest() {
		if err := c.makeDirectories(c.dest); err != nil {
			return err
		}
	}
	if err := c.makeParents(nil); err != nil {
		return err
	}
	from := c.from.At(source.Path)
	target, err := c.targetOf(source)
	if err == nil {
		err = checkFits(target, from, c.like)
	}
	if err == nil && c.given.CreateDestPath {
		err = c.makeParents(target[:max(0, len(target)-1)])
	}
	if err == nil {
		err = checkParents(c.into, target)
	}
	if err == nil && c.given.DirCopyContents && from.dir && c.like.Has(ContentsTarget) {
		err = c.makeDirectories(target)
	}
	if err != nil {
		return err
	}
	return c.put(target, source.Path, from.withoutFolder())
}

// put puts what is copied at a path whose parents are there.
func (c *copier) put(target, source []string, from *Node) (err error) {
	if c.filter, err = filterOf(c.given); err != nil {
		return err
	}
	old, in := c.into.At(target), above(c.into, target)
	var one *Node
	if c.like&TakesPlace != 0 && c.folder.Late != "" {
		if err := c.folder.checkLate(target, c.into); err != nil {
			return err
		}
	}
	if c.filter != nil && from.dir {
		one, _, err = c.filtered(filtering{path: target, source: source, old: old, from: from, in: in, isSource: true})
	} else {
		one, err = c.lay(target, source, old, from, in, true)
	}
	if err == nil {
		c.into = c.into.with(target, one)
	}
	return err
}

// lay returns what is at a path in a directory once a node is copied over what is there. Rule NestedDirectory: a directory
// below the source replaces mode and owner of one that is there. What an archive unpacks to takes the place of what is of another kind.
func (c *copier) lay(path, source []string, old, from *Node, in entry, isSource bool) (*Node, error) {
	if old != nil && old.dir != from.dir && c.folder.isUnpacked() && c.like&TakesPlace != 0 && !isSource {
		old = nil
	}
	if old != nil && old.dir != from.dir {
		kind := "file"
		if old.dir {
			kind = "directory"
		}
		return nil, fails("%s is a %s", shown(path), kind)
	}
	if !old.IsDir() && c.keepsAll() {
		c.grafted[shown(path)] = shown(source)
		return from, nil
	}
	if err := c.ctx.Err(); err != nil {
		return nil, err
	}
	one := entry{}
	switch {
	case old.IsDir() && c.keepsOld(isSource):
		one = old.entry
	case old.IsDir():
		one = c.entryOf(from.entry, [2]uint32{old.user, old.group})
	default:
		one = c.entryOf(from.entry, creator(in, c.like))
	}
	if !from.dir {
		return shared(newNode(one, persistent.Map[*Node]{}), old), nil
	}
	key := laying{old.Sum(), from.Sum(), inherits(in, c.like), in.group, isSource}
	if found := c.laid[key]; found != nil {
		return found, nil
	}
	below, err := c.layBelow(path, source, old.children(), from, c.during(old, from.entry, in, isSource))
	if err != nil {
		return nil, err
	}
	c.laid[key] = shared(newNode(one, below), old)
	return c.laid[key], nil
}

// keepsOld is whether a directory that is there keeps its mode and its owner.
func (c *copier) keepsOld(isSource bool) bool {
	if isSource {
		return !c.folder.Own || c.like&TakesPlace == 0
	}
	return !c.like.Has(NestedDirectory)
}

// during returns what a directory is while what is below it is copied: it gets its owner and its mode afterwards. Rule SetGroup: until then
// it has what it was made with.
func (c *copier) during(old *Node, from, in entry, isSource bool) entry {
	switch {
	case old.IsDir() && c.keepsOld(isSource):
		return old.entry
	case old.IsDir():
		one := old.entry
		one.mode = from.mode
		return one
	}
	one := from
	one.mode &^= setGroup
	if inherits(in, c.like) {
		one.mode |= setGroup
	}
	one.group = creator(in, c.like)[1]
	return one
}

// layBelow returns what is below a directory once that of another one is copied into it.
func (c *copier) layBelow(path, source []string, old persistent.Map[*Node], from *Node, in entry) (persistent.Map[*Node], error) {
	var made persistent.Builder[*Node]
	for name, one := range from.below.All() {
		laid, err := c.lay(below(path, name), below(source, name), old.Get(name), one, in, false)
		if err != nil {
			return old, err
		}
		made.Add(name, laid)
	}
	return persistent.Over(old, made.Map()), nil
}

// keepsAll is whether what is copied keeps its owner and its mode.
func (c *copier) keepsAll() bool { return c.by == noOwner && c.given.Mode == keptMode }

// entryOf returns a copied entry with the owner and the mode of the action.
func (c *copier) entryOf(one entry, created [2]uint32) entry {
	c.by.of(&one, [2]uint32{one.user, one.group}, created, c.like)
	if c.given.Mode != keptMode {
		one.mode = uint32(c.given.Mode) & modeBits
	}
	return one
}
