package rewriting

import (
	"context"

	"github.com/moby/buildkit/solver/pb"
	"llbm/daemon/internal/rules"
)

// trees are those of an output: as llbm makes it of what is run, as BuildKit makes it of what was sent, and as BuildKit makes it
// of what is run.
type trees struct {
	here  *rules.Node
	there *rules.Ref
	again *rules.Ref
	agree bool // whether all three are equal
}

func treesOf(here *rules.Node, there, again *rules.Ref) trees {
	t := trees{here: here, there: there, again: again}
	t.agree = rules.EqualBelow(here, there.Tree()) && (again == there || rules.EqualBelow(again.Tree(), there.Tree()))
	if t.agree { // nodes that are shared are compared fast
		t.here = there.Tree().WithEntryOf(here)
	}
	return t
}

// A state has the outputs of a vertex, none if it is not known what it makes.
type state struct{ outputs []trees }

// inputs returns the trees of a vertex's inputs, if all are known.
func (w *writer) inputs(v int) ([]trees, bool) {
	if w.treeless {
		return nil, false
	}
	it := &w.graph.Vertices[v]
	found := []trees{}
	for i, input := range it.Inputs {
		index, outputs := it.Op.Inputs[i].Index, w.states[input].outputs
		if index < 0 || int(index) >= len(outputs) {
			return nil, false
		}
		found = append(found, outputs[index])
	}
	return found, true
}

// someInputs returns the trees of those inputs of a vertex that are known and equal in both, and of the empty tree.
func (w *writer) someInputs(v int) map[pb.InputIndex]*rules.Node {
	if w.treeless {
		return nil
	}
	it := &w.graph.Vertices[v]
	found := map[pb.InputIndex]*rules.Node{nothing: rules.Empty()}
	for i, input := range it.Inputs {
		index, outputs := it.Op.Inputs[i].Index, w.states[input].outputs
		if index >= 0 && int(index) < len(outputs) && outputs[index].agree {
			found[pb.InputIndex(i)] = outputs[index].there.Tree()
		}
	}
	return found
}

// lists returns the trees of inputs by each of the three.
func lists(inputs []trees) (here, there, again []*rules.Ref) {
	for _, one := range inputs {
		here, there, again = append(here, rules.Based(one.here)), append(there, one.there), append(again, one.again)
	}
	return here, there, again
}

// follow does an op by all rules that was rewritten without its trees, so that what depends on it has trees.
func (w *writer) follow(ctx context.Context, v int, inputs []trees) error {
	it := &w.graph.Vertices[v]
	run := it.Op
	if op, ok := w.ops[it.Row]; ok {
		run = op
	}
	here, there, again := lists(inputs)
	do := func(op *pb.Op, inputs []*rules.Ref, like rules.Rules) ([]*rules.Ref, error) {
		if op.GetFile() != nil {
			return rules.FileOp(ctx, op.GetFile(), inputs, like)
		}
		one, err := rules.Merge(ctx, op.GetMerge(), inputs, like)
		return []*rules.Ref{one}, err
	}
	byLLBM, errHere := do(run, here, rules.None)
	byBuildKit, errThere := do(it.Op, there, rules.All)
	andAgain, errAgain := do(run, again, rules.All)
	if errHere != nil || errThere != nil || errAgain != nil {
		return ctx.Err()
	}
	for i := range byBuildKit {
		w.states[v].outputs = append(w.states[v].outputs, treesOf(byLLBM[i].Tree(), byBuildKit[i], andAgain[i]))
	}
	return nil
}
