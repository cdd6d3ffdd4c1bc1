package rules

import (
	"context"
	"fmt"
	"slices"

	"github.com/moby/buildkit/solver/pb"
	"llbm/daemon/internal/graph"
)

// A Possibility is a way in which a vertex, or one of its actions, can end otherwise in BuildKit: a rule, or another note.
type Possibility struct {
	Vertex, Action int // the action is -1 if it is of the vertex as a whole
	Name           string
}

// Part returns the part of the op, in words.
func (p Possibility) Part() string {
	if p.Action < 0 {
		return ""
	}
	return fmt.Sprintf("action %d", p.Action)
}

// Possible returns how the vertices of a graph can end otherwise, whatever the trees of its sources are. The trees of what is made
// from nothing are known, and such actions are done by both sets of rules. Where a tree is not known, an action has each rule that
// can matter for some tree.
func Possible(ctx context.Context, vertices []graph.Vertex) ([]Possibility, error) {
	var found []Possibility
	values := make([][]*known, len(vertices))
	for v := range vertices {
		var inputs []*known
		for i, input := range vertices[v].Inputs {
			index := int(vertices[v].Op.Inputs[i].Index)
			if index < 0 || index >= len(values[input]) {
				return nil, nil // llbm refuses such a definition
			}
			inputs = append(inputs, values[input][index])
		}
		outputs, of, err := possible(ctx, vertices[v].Op, inputs)
		if err != nil {
			return nil, err
		}
		for _, one := range of {
			one.Vertex = v
			found = append(found, one)
		}
		values[v] = outputs
	}
	if v := Deep(vertices); v >= 0 {
		found = append(found, Possibility{Vertex: v, Action: -1, Name: Depth})
	}
	return found, nil
}

// possible returns what is known of the outputs of a vertex, and how it can end otherwise.
func possible(ctx context.Context, op *pb.Op, inputs []*known) ([]*known, []Possibility, error) {
	byRules := func(rules ...Rule) (out []Possibility) {
		for _, rule := range rules {
			out = append(out, Possibility{Action: -1, Name: rule.String()})
		}
		return out
	}
	switch {
	case op.GetSource() != nil:
		rules := []Rule{LocalOwner}
		if isFiltered(op.GetSource()) {
			rules = append(rules, Filters)
		}
		return []*known{{isLocal: true}}, byRules(rules...), nil
	case op.GetMerge() != nil:
		made, rules := knownMerge(op.GetMerge(), inputs)
		return []*known{made}, byRules(rules...), nil
	case op.GetFile() != nil:
		f := &possibleFile{actions: op.GetFile().Actions, count: len(inputs), values: slices.Clone(inputs)}
		outputs, err := f.all(ctx)
		return outputs, f.found, err
	}
	return slices.Repeat([]*known{{isChanged: true, isLocal: true, isRun: true}}, Outputs(op.GetExec())),
		[]Possibility{{Action: -1, Name: Execution}}, nil
}

// A possibleFile is a file op of which some inputs are not known, while its actions are looked at.
type possibleFile struct {
	actions []*pb.FileAction
	count   int
	values  []*known // of the inputs, and of the actions so far
	found   []Possibility
}

func (f *possibleFile) note(action int, rules ...Rule) {
	for _, rule := range rules {
		f.found = append(f.found, Possibility{Action: action, Name: rule.String()})
	}
}

// value returns what is known of an input or a result.
func (f *possibleFile) value(index pb.InputIndex) *known {
	if index == nothing {
		return &known{tree: Empty()}
	}
	return f.values[index]
}

// all looks at all actions, and returns what is known of the outputs.
func (f *possibleFile) all(ctx context.Context) ([]*known, error) {
	outputs := map[int]*known{}
	for number, action := range f.actions {
		if err := f.look(ctx, number); err != nil {
			return nil, err
		}
		if action.Output != nothing {
			outputs[int(action.Output)] = f.values[f.count+number]
		}
	}
	f.lookAtOrder()
	var out []*known
	for n := range len(outputs) {
		if outputs[n] == nil {
			break // llbm refuses outputs that are not numbered from 0
		}
		out = append(out, outputs[n])
	}
	return out, nil
}

// look notes the rules of an action, and adds what is known of its result.
func (f *possibleFile) look(ctx context.Context, number int) error {
	action := f.actions[number]
	base, second := f.value(action.Input), &known{tree: Empty()}
	if action.GetCopy() != nil {
		second = f.value(action.SecondaryInput)
	}
	made := &known{
		isChanged: base.isChanged || action.GetRm() != nil, isLocal: base.isLocal, isRun: base.isRun || second.isRun,
		directories: directoriesAfter(action, base),
	}
	var rules []Rule
	if base.tree == nil || second.tree == nil {
		rules = possibleRules(action, base, second)
	} else {
		var left *Node
		var err error
		if rules, left, err = mattering(ctx, action, base.tree, second.tree); err != nil {
			return err
		}
		if len(rules) == 0 && !left.isLarge(mostKnown) {
			made.tree = left
		}
	}
	f.note(number, rules...)
	f.values = append(f.values, made)
	return nil
}

// lookAtOrder notes actions that are not done, and second inputs.
func (f *possibleFile) lookAtOrder() {
	wanted := map[int]bool{}
	for _, number := range needed(f.actions, f.count, All) {
		wanted[number] = true
	}
	for number := range f.actions {
		if !wanted[number] {
			f.note(number, UnusedAction)
		}
	}
	for _, number := range hashedCopies(f.actions, f.count) {
		if !wanted[number] {
			f.note(number, Selected)
		}
	}
	if fault, ok := failed(checkSecondInputs(f.actions, f.count)); ok {
		f.note(fault.Action, SecondInput)
	}
}

// mattering returns the rules without which, or by which alone, an action ends otherwise on trees; and what the action leaves if
// there are none.
func mattering(ctx context.Context, action *pb.FileAction, base, second *Node) ([]Rule, *Node, error) {
	do := func(like Rules) result {
		left, err := Act(ctx, action, base, second, like)
		return result{left, err}
	}
	there, here := do(All), do(None)
	if there.isSame(here) {
		return nil, there.tree, ctx.Err()
	}
	var found []Rule
	for rule := range numberOfRules {
		if !do(All.Without(rule)).isSame(there) || !do(None.With(rule)).isSame(here) {
			found = append(found, rule)
		}
	}
	return found, nil, ctx.Err()
}

// Breaking returns what of an op BuildKit's daemon dies of.
func Breaking(op *pb.Op) []Possibility {
	var found []Possibility
	if op.GetSource() != nil && len(op.Inputs) > 0 {
		found = append(found, Possibility{Action: -1, Name: SourceInputs})
	}
	if op.GetMerge() != nil && len(op.GetMerge().Inputs) < len(op.Inputs) {
		found = append(found, Possibility{Action: -1, Name: ShortMerge})
	}
	for number, action := range op.GetFile().GetActions() {
		if rm := action.GetRm(); rm != nil && leavesTree(rm) {
			found = append(found, Possibility{Action: number, Name: RmAboveRoot})
		}
	}
	return found
}
