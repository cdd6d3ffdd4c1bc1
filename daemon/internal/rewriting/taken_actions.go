package rewriting

import (
	"context"
	"errors"
	"slices"

	"github.com/moby/buildkit/solver/pb"
	"llbm/daemon/internal/paths"
	"llbm/daemon/internal/rules"
)

// errBeyond is that llbm does not take an action, and that what is known of trees does not suffice to rewrite it.
var errBeyond = errors.New("llbm does not take the action")

// numbered says what was changed of an owner.
const numbered = "the owner by its numbers"

// A part is an action that llbm takes, what it copies from, and the tree of that, if it is known.
type part struct {
	action *pb.FileAction
	second pb.InputIndex
	from   *rules.Node
}

// within returns what is done for an action that was sent: the action itself or, where llbm does not take it, others that do the same
// on any tree. What it copies from has to be known for this, or the tree that has its owner's name.
func (f *fileOp) within(ctx context.Context, number int) ([]part, error) {
	action, err := rules.Named(f.sent[number], f.ownersIn)
	if rules.IsUnknown(err) {
		return nil, errBeyond
	}
	if err != nil {
		return nil, err
	}
	if len(rules.NamesOf(f.sent[number])) > 0 {
		f.change(number, numbered)
	}
	action = cloned(action)
	second, from := f.placeOf(action.SecondaryInput), f.known[action.SecondaryInput]
	whole := []part{{action, second, from}}
	c := action.GetCopy()
	if c == nil || rules.Beyond(action) == "" && !from.HasLinks() {
		return whole, nil
	}
	if from == nil {
		return nil, errBeyond
	}
	if unpacks, err := rules.Unpacks(ctx, c, from); err != nil || unpacks {
		return nil, errors.Join(errBeyond, err)
	}
	sources, err := rules.Sources(ctx, c, from, rules.All)
	if rules.IsUnknown(err) {
		return nil, errBeyond
	}
	if err != nil || len(sources) == 0 {
		return whole, f.plainly(number, action) // it fails without patterns too, or copies nothing
	}
	if !hasPatterns(c) {
		same, err := rules.Sources(ctx, c, from, rules.All&^rules.Followed)
		if err == nil && slices.EqualFunc(sources, same, func(a, b rules.Source) bool { return slices.Equal(a.Path, b.Path) }) {
			return whole, f.plainly(number, action)
		}
	}
	return f.parts(ctx, number, action, second, from, sources)
}

func hasPatterns(c *pb.FileActionCopy) bool { return len(c.IncludePatterns)+len(c.ExcludePatterns) > 0 }

// plainly drops what llbm does not take of an action, and what does nothing.
func (f *fileOp) plainly(number int, action *pb.FileAction) error {
	var w actionWriter
	w.within(action)
	for _, what := range w.changes {
		f.change(number, what)
	}
	return nil
}

// ownersIn returns a tree with the files that have the numbers of an input or a result, if it is known. An action that works elsewhere
// leaves them as they are.
func (f *fileOp) ownersIn(index pb.InputIndex) (*rules.Node, error) {
	for int(index) >= f.count {
		action := f.sent[int(index)-f.count]
		if worksOnOwners(action) {
			return nil, rules.ErrUnknown
		}
		index = action.Input
	}
	if tree := f.known[index]; tree != nil {
		return tree, nil
	}
	return nil, rules.ErrUnknown
}

// worksOnOwners is whether an action may change what is at or below /etc.
func worksOnOwners(action *pb.FileAction) bool {
	var text string
	switch a := action.Action.(type) {
	case *pb.FileAction_Copy:
		text = a.Copy.Dest
	case *pb.FileAction_Mkdir:
		text = a.Mkdir.Path
	case *pb.FileAction_Mkfile:
		text = a.Mkfile.Path
	case *pb.FileAction_Rm:
		text = a.Rm.Path
	}
	names := paths.Names(text)
	return len(names) == 0 || names[0] == "etc" || paths.HasWildcard(names[0])
}

// parts returns the parts of a copy, one for each source, by its path. What patterns take of a directory is first copied to a tree of its
// own, which is known, and so is what has another name where a link leads to it.
func (f *fileOp) parts(
	ctx context.Context, number int, action *pb.FileAction, second pb.InputIndex, from *rules.Node, sources []rules.Source,
) ([]part, error) {
	var parts []part
	for _, source := range sources {
		one := cloned(action)
		made, isDir := one.GetCopy(), from.At(source.Path).IsDir()
		var w actionWriter
		w.within(one)
		made.AllowWildcard, made.AllowEmptyWildcard, made.Src = false, false, paths.Text(source.Path, "")
		place, tree := second, from
		if hasPatterns(action.GetCopy()) && isDir || source.Name != nameOf(source.Path) {
			if !made.DirCopyContents && isDir && source.Name == "" {
				return nil, errBeyond // it has no name below dest
			}
			var err error
			if place, tree, err = f.taken(ctx, number, action.GetCopy(), source, second, from); err != nil {
				return nil, err
			}
			made.Src = paths.Text([]string{nameFor(source)}, "")
		}
		parts = append(parts, part{one, place, tree})
	}
	return parts, nil
}

// nameOf returns the last name of a path, if it has one.
func nameOf(path []string) string {
	if len(path) == 0 {
		return ""
	}
	return path[len(path)-1]
}

// nameFor returns the name of a source in a tree of its own.
func nameFor(one rules.Source) string {
	if one.Name == "" {
		return "source"
	}
	return one.Name
}

// taken copies what the patterns of a copy take of a directory into an empty tree, and returns the place of this tree, and the tree.
func (f *fileOp) taken(
	ctx context.Context, number int, c *pb.FileActionCopy, one rules.Source, second pb.InputIndex, from *rules.Node,
) (pb.InputIndex, *rules.Node, error) {
	action := copyOf(one.Path, []string{nameFor(one)}, keptMode, nil)
	action.GetCopy().IncludePatterns, action.GetCopy().ExcludePatterns = c.IncludePatterns, c.ExcludePatterns
	wanted, err := rules.Act(ctx, action, rules.Empty(), from, rules.All)
	if err != nil {
		return nothing, nil, err
	}
	t := &treeWriter{fileOp: f, ctx: ctx}
	for index := range f.count + len(f.new) {
		t.pairs = append(t.pairs, pair{rules.Empty(), rules.Empty()})
		if tree := f.known[pb.InputIndex(index)]; tree != nil && index < f.count {
			t.pairs[index] = pair{tree, tree}
		}
	}
	made := t.begin(number)
	made.sent, made.base, made.at, made.second = action, nothing, nothing, second
	if err := made.byTrees(wanted); err != nil || !made.isAt(wanted) {
		return nothing, nil, errors.Join(errBeyond, ctx.Err())
	}
	f.change(number, "a copy of what it takes before it")
	return made.at, wanted, nil
}
