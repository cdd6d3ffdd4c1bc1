package rewriting

import (
	"context"
	"errors"
	"fmt"
	"strings"

	"github.com/moby/buildkit/solver/pb"
	"llbm/daemon/internal/paths"
	"llbm/daemon/internal/rules"
)

// A Row says how an entry was rewritten.
type Row struct {
	// Actions has for each new action of a file op the one that it comes from, as it was sent; -1 where it comes from the op.
	Actions []int
	// Changes says in words what was changed, such as `action 0: an mkdir before it`.
	Changes []string
	// Fails says why BuildKit fails, if the op was rewritten to one that fails in llbm too.
	Fails string
}

// A fileOp has the actions of a file op while they are rewritten.
type fileOp struct {
	Row
	count int              // the op's inputs
	most  int              // how many actions it has at most
	sent  []*pb.FileAction // is not changed
	new   []*pb.FileAction
	place map[int]pb.InputIndex // the new result of each action as sent, as an input
	// isWhole is whether an output needs each action.
	isWhole bool
	// known has the trees of inputs that are known, if not all are: what a copy copies can be.
	known map[pb.InputIndex]*rules.Node
	// isBeyond is whether an action stays one that llbm does not take.
	isBeyond bool
}

func newFileOp(op *pb.Op) *fileOp {
	return &fileOp{count: len(op.Inputs), sent: op.GetFile().GetActions(), place: map[int]pb.InputIndex{}}
}

func (w *writer) fileOp(op *pb.Op) *fileOp {
	f := newFileOp(op)
	f.most = w.most
	return f
}

func (f *fileOp) change(number int, what string) {
	if number >= 0 {
		what = fmt.Sprintf("action %d: %s", number, what)
	}
	f.Changes = append(f.Changes, what)
}

// put adds an action that works on an input or on a result, and returns its own result.
func (f *fileOp) put(number int, action *pb.FileAction, base, second pb.InputIndex) pb.InputIndex {
	action.Input, action.SecondaryInput, action.Output = base, second, noOutput
	f.new, f.Actions = append(f.new, action), append(f.Actions, number)
	return pb.InputIndex(f.count + len(f.new) - 1)
}

// placeOf returns the new index of an input or of a result; what is not done yet is nothing.
func (f *fileOp) placeOf(index pb.InputIndex) pb.InputIndex {
	if int(index) < f.count {
		return index
	}
	if place, ok := f.place[int(index)-f.count]; ok {
		return place
	}
	return nothing
}

// A refused is an action for which BuildKit refuses a file op, whatever its trees are.
type refused struct {
	action int
	why    string
}

func (r *refused) Error() string { return r.why }

// order returns the actions that an output needs, each after those that it needs itself: BuildKit does no others. It needs the
// second input of any action, also of one that does not read it.
func (f *fileOp) order() ([]int, error) {
	for number, action := range f.sent {
		if index := action.SecondaryInput; index < nothing || int(index) >= f.count+len(f.sent) {
			return nil, &refused{number, "the second input does not exist"}
		}
	}
	const (
		open = iota + 1
		done
	)
	states := map[int]int{}
	var order []int
	var visit func(int) error
	visit = func(number int) error {
		switch states[number] {
		case open:
			return &refused{number, "the second input depends on the action"}
		case done:
			return nil
		}
		states[number] = open
		for _, index := range []pb.InputIndex{f.sent[number].Input, f.sent[number].SecondaryInput} {
			if before := int(index) - f.count; before >= 0 {
				if err := visit(before); err != nil {
					return err
				}
			}
		}
		states[number] = done
		order = append(order, number)
		return nil
	}
	for number, action := range f.sent {
		if action.Output != noOutput {
			if err := visit(number); err != nil {
				return nil, err
			}
		}
	}
	return order, nil
}

// treeless rewrites the actions as far as that does not depend on trees.
func (f *fileOp) treeless(ctx context.Context) {
	order, err := f.order()
	if one, ok := err.(*refused); ok {
		f.fail(one.action, one.why)
		return
	}
	f.isWhole = len(order) == len(f.sent)
	for _, number := range order {
		err := f.add(ctx, number)
		if errors.Is(err, errBeyond) {
			f.isBeyond = true
			return
		}
		if err != nil {
			f.fail(number, err.Error())
			return
		}
	}
	f.unused()
}

// sources returns what is known of the sources of a copy. If it has none, BuildKit fails, whatever it would copy to.
func (f *fileOp) sources(ctx context.Context, c *pb.FileActionCopy, tree *rules.Node) (sourcesKnown, error) {
	if tree == nil {
		return unknownSources, nil
	}
	found, err := rules.Sources(ctx, c, tree, rules.All)
	if err != nil || len(found) == 0 {
		return unknownSources, err
	}
	for _, one := range found {
		if !tree.At(one.Path).IsDir() {
			return someSources, nil
		}
	}
	return directorySources, nil
}

// add adds an action, rewritten. It fails if BuildKit does.
func (f *fileOp) add(ctx context.Context, number int) error {
	parts, err := f.within(ctx, number)
	if err != nil {
		return err
	}
	base := f.placeOf(f.sent[number].Input)
	for _, one := range parts {
		if base, err = f.addPart(ctx, number, one, base); err != nil {
			return err
		}
	}
	f.place[number] = base
	f.new[int(base)-f.count].Output = f.sent[number].Output
	return nil
}

// addPart adds an action that llbm takes, and returns its result.
func (f *fileOp) addPart(ctx context.Context, number int, one part, base pb.InputIndex) (pb.InputIndex, error) {
	action, second, known := one.action, one.second, unknownSources
	if c := action.GetCopy(); c != nil {
		var err error
		if known, err = f.sources(ctx, c, one.from); err != nil {
			return base, err
		}
	}
	var w actionWriter
	w.rewrite(action)
	for _, what := range w.changes {
		f.change(number, what)
	}
	if c := action.GetCopy(); c != nil {
		second = f.aside(number, c, second)
		base = f.before(number, c, base, known)
	}
	return f.put(number, action, base, second), nil
}

// aside copies the source of a copy to a tree of its own first, where BuildKit and llbm read the source's text in two ways: one that
// ends in `/.` is what is in a directory, and no file; and before a wildcard a backslash is a character of a name. It
// returns what the copy then copies from.
func (f *fileOp) aside(number int, c *pb.FileActionCopy, second pb.InputIndex) pb.InputIndex {
	parts, first := paths.Names(c.Src), *c
	wild := paths.Wild(parts)
	first.Dest, first.Mode, first.Owner, first.DirCopyContents, first.CreateDestPath = "/source", keptMode, nil, false, false
	isDirectory := strings.HasSuffix(c.Dest, "/") || len(paths.Names(c.Dest)) == 0
	switch {
	case !c.AllowWildcard && strings.HasSuffix(c.Src, "/.") && len(parts) > 0 && isDirectory:
		f.change(number, "dirCopyContents")
		c.Src, c.DirCopyContents = first.Dest, true
		copied := f.put(number, &pb.FileAction{Action: &pb.FileAction_Copy{Copy: &first}}, nothing, second)
		mkdir := &pb.FileActionMkDir{Path: first.Dest, Mode: newMode, MakeParents: true, Timestamp: -1} // it fails for a file
		return f.put(number, &pb.FileAction{Action: &pb.FileAction_Mkdir{Mkdir: mkdir}}, copied, nothing)
	case f.isWhole && c.AllowWildcard && wild < len(parts) && strings.Contains(paths.Text(parts[:wild], ""), `\`) &&
		paths.IsPattern(strings.Join(parts[wild:], "/")): // BuildKit looks into an input for what is none
		f.change(number, "a copy of what is before the wildcard")
		first.Src, first.AllowWildcard, first.AllowEmptyWildcard = paths.Text(parts[:wild], ""), false, false
		c.Src = first.Dest + paths.Text(parts[wild:], "")
		return f.put(number, &pb.FileAction{Action: &pb.FileAction_Copy{Copy: &first}}, nothing, second)
	}
	return second
}

// before puts an mkdir before a copy where BuildKit makes a directory, and returns what the copy then works on.
func (f *fileOp) before(number int, c *pb.FileActionCopy, base pb.InputIndex, known sourcesKnown) pb.InputIndex {
	mkdir := directoryBefore(c, known)
	if mkdir == nil {
		return base
	}
	if last := int(base) - f.count; last >= 0 {
		if made := f.new[last].GetMkdir(); made != nil && made.String() == mkdir.GetMkdir().String() {
			return base
		}
	}
	f.change(number, "an mkdir before it")
	return f.put(number, mkdir, base, nothing)
}

// unused adds what is kept of actions that no output needs. BuildKit does none of them, but they count: a result that they use
// is a layer by itself, an input that they work on is not looked into before the op, and a copy's source has to be there in one
// that is. So they become actions that do nothing, or copies to nowhere.
func (f *fileOp) unused() {
	s := selectionsOf(f.sent)
	for number, action := range f.sent {
		if _, done := f.place[number]; done {
			continue
		}
		base, second := f.placeOf(action.Input), f.placeOf(action.SecondaryInput)
		what := "dropped"
		if guard := s.guard(action); guard != nil && f.isInput(second) {
			f.put(number, guard, nothing, second)
			what, second = "copies to nowhere", nothing
		}
		if int(base) >= f.count || int(second) >= f.count || f.isInput(base) && s.copied[base] {
			f.put(number, neutral(), base, second)
			what = "does nothing"
		}
		f.change(number, what+", since no output needs it")
	}
}

func (f *fileOp) isInput(index pb.InputIndex) bool { return index >= 0 && int(index) < f.count }

// neutral returns an action that changes nothing in llbm, nor in BuildKit.
func neutral() *pb.FileAction {
	return &pb.FileAction{Action: &pb.FileAction_Mkdir{Mkdir: &pb.FileActionMkDir{Path: "/", Mode: newMode, MakeParents: true, Timestamp: -1}}}
}

// fail makes of the op one that fails, with as many outputs: its first action copies what is not there.
func (f *fileOp) fail(number int, why string) {
	outputs := 0
	for _, action := range f.sent {
		if action.Output != noOutput {
			outputs++
		}
	}
	f.Row, f.new, f.place = Row{Fails: why}, nil, map[int]pb.InputIndex{}
	f.change(number, "fails, as in BuildKit: "+why)
	for output := range max(1, outputs) {
		action := neutral()
		if output == 0 {
			action = copyOf([]string{"missing"}, []string{"missing"}, keptMode, nil)
		}
		f.put(number, action, nothing, nothing)
		action.Output = pb.OutputIndex(output)
	}
}

// copyOf returns a copy of what is at a path to another one.
func copyOf(source, dest []string, mode int32, owner *pb.ChownOpt) *pb.FileAction {
	return &pb.FileAction{Action: &pb.FileAction_Copy{Copy: &pb.FileActionCopy{
		Src: paths.Text(source, ""), Dest: paths.Text(dest, ""), Mode: mode, Owner: owner, Timestamp: -1,
	}}}
}
