package rules

import (
	"context"
	"maps"
	"slices"

	"github.com/moby/buildkit/solver/pb"
)

const nothing = -1 // the empty tree as an input

// An ActionFails says which action of a file op fails, and why.
type ActionFails struct {
	Action int
	Err    error
}

func (f *ActionFails) Error() string { return f.Err.Error() }

func (f *ActionFails) Unwrap() error { return f.Err }

// errNoRoot is that an output has no root, as an action removed it. BuildKit's daemon fails as it reads such an output.
var errNoRoot = fails("the root is removed")

// An outcome is what an action left. Of a copy it has, by the path of what was put into the tree as it is, where it was.
type outcome struct {
	tree    *Node
	grafted map[string]string
}

// Act returns what an action leaves of a tree.
func Act(ctx context.Context, action *pb.FileAction, base, second *Node, like Rules) (*Node, error) {
	out, err := act(ctx, action, base, second, like)
	return out.tree, err
}

func act(ctx context.Context, action *pb.FileAction, base, second *Node, like Rules) (out outcome, err error) {
	switch a := action.Action.(type) {
	case *pb.FileAction_Copy:
		c, err := copied(ctx, a.Copy, base, second, like)
		if err != nil {
			return out, err
		}
		return outcome{c.into, c.grafted}, nil
	case *pb.FileAction_Mkdir:
		out.tree, err = mkdir(a.Mkdir, base, like)
	case *pb.FileAction_Mkfile:
		out.tree, err = mkfile(a.Mkfile, base, like)
	case *pb.FileAction_Rm:
		out.tree, err = rm(ctx, a.Rm, base, like)
	default:
		err = fails("the action has no kind")
	}
	return out, err
}

// A working is what an action left: its tree, what this is a change of, and the tree as a layer by itself, if it is one.
type working struct {
	tree *Node
	base *Ref
	ref  *Ref
}

// A step has the trees that an action was done on, and what it left.
type step struct {
	base, second *Node
	left         outcome
}

// A fileOp is a file op while it is done on its inputs.
type fileOp struct {
	actions []*pb.FileAction
	inputs  []*Ref
	like    Rules
	uses    map[int]int
	done    map[int]*working
	steps   map[int]step
	numbers map[int]*pb.FileAction // the actions that are done, with numbers for names
	failed  *step                  // the trees on which an action failed
}

func newFileOp(op *pb.FileOp, inputs []*Ref, like Rules) *fileOp {
	f := &fileOp{
		actions: op.GetActions(), inputs: inputs, like: like, uses: map[int]int{}, done: map[int]*working{}, steps: map[int]step{},
		numbers: map[int]*pb.FileAction{},
	}
	for _, one := range f.actions {
		f.uses[int(one.Input)]++
		f.uses[int(one.SecondaryInput)]++
	}
	return f
}

// FileOp does the actions of a file op on its inputs by some rules, and returns the outputs of the op. An error by which an
// action fails is of type *ActionFails.
func FileOp(ctx context.Context, op *pb.FileOp, inputs []*Ref, like Rules) ([]*Ref, error) {
	return newFileOp(op, inputs, like).outputs(ctx)
}

// A Did is a file op that was done: what each action left that was done, and the actions, with numbers in the place of names.
type Did struct {
	Left    map[int]*Node
	Actions []*pb.FileAction
	Outputs []*Ref
}

// Steps does the actions of a file op as FileOp does.
func Steps(ctx context.Context, op *pb.FileOp, inputs []*Ref, like Rules) (*Did, error) {
	f := newFileOp(op, inputs, like)
	outputs, err := f.outputs(ctx)
	did := &Did{Left: map[int]*Node{}, Actions: slices.Clone(f.actions), Outputs: outputs}
	for number, one := range f.steps {
		did.Left[number] = one.left.tree
	}
	for number, one := range f.numbers {
		did.Actions[number] = one
	}
	return did, err
}

// outputs does the actions, and returns the outputs of the op.
func (f *fileOp) outputs(ctx context.Context) ([]*Ref, error) {
	if f.like.Has(Selected) {
		if err := checkSelected(ctx, f.actions, f.inputs); err != nil {
			return nil, err
		}
	}
	if f.like.Has(SecondInput) {
		if err := checkSecondInputs(f.actions, len(f.inputs)); err != nil {
			return nil, err
		}
	}
	numbers := map[int]int{}
	for number, action := range f.actions {
		if action.Output != nothing {
			numbers[int(action.Output)] = number
		}
	}
	for _, number := range needed(f.actions, len(f.inputs), f.like) {
		if err := ctx.Err(); err != nil {
			return nil, err
		}
		if err := f.do(ctx, number); err != nil {
			return nil, &ActionFails{number, err}
		}
	}
	var out []*Ref
	for _, output := range slices.Sorted(maps.Keys(numbers)) {
		out = append(out, f.refOf(len(f.inputs)+numbers[output]))
	}
	return out, nil
}

// do does an action; what it needs is done. A result that is used twice is a layer by itself, and so is one that is an output.
func (f *fileOp) do(ctx context.Context, number int) error {
	action := f.actions[number]
	base, second := f.startOf(int(action.Input)), Empty()
	if action.GetCopy() != nil {
		second = f.startOf(int(action.SecondaryInput)).tree
	}
	action, err := Named(action, f.treeOf)
	if err == nil {
		f.numbers[number] = action
	}
	var left outcome
	if err == nil {
		left, err = act(ctx, action, base.tree, second, f.like)
	}
	if err != nil {
		f.failed = &step{base: base.tree, second: second}
		return err
	}
	f.steps[number] = step{base.tree, second, left}
	made := &working{tree: left.tree, base: base.base}
	if action.Output != nothing || f.uses[len(f.inputs)+number] > 1 {
		if left.tree == nil {
			f.failed = &step{base: base.tree, second: second}
			return errNoRoot
		}
		made.ref = On(made.base, left.tree)
	}
	f.done[number] = made
	return nil
}

// treeOf returns the tree of an input, or of a result that is done.
func (f *fileOp) treeOf(index pb.InputIndex) (*Node, error) {
	number := int(index) - len(f.inputs)
	switch {
	case number < 0:
		return f.inputs[index].tree, nil
	case f.done[number] == nil:
		return nil, ErrUnknown
	}
	return f.done[number].tree, nil
}

// startOf returns the tree that an action is done on, with what its change is a change of.
func (f *fileOp) startOf(index int) *working {
	if index < 0 {
		return &working{tree: Empty()}
	}
	if number := index - len(f.inputs); number >= 0 && f.done[number].ref == nil {
		return f.done[number]
	}
	one := f.refOf(index)
	return &working{tree: one.tree, base: one}
}

// refOf returns an input, or the result of an action as a layer by itself.
func (f *fileOp) refOf(index int) *Ref {
	if index < len(f.inputs) {
		return f.inputs[index]
	}
	one := f.done[index-len(f.inputs)]
	if one.ref != nil {
		return one.ref
	}
	return On(one.base, one.tree)
}
