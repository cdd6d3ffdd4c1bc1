package rewriting

import (
	"context"

	"github.com/moby/buildkit/solver/pb"
	"llbm/daemon/internal/rules"
)

// listed returns a merge that lists each input of its op once, in their order, as BuildKit lays them. If the merge lists fewer than
// its op has, of which BuildKit's daemon dies, the op gets those that are listed.
func listed(op *pb.Op) (*pb.Op, string) {
	given := op.GetMerge().GetInputs()
	inOrder := len(given) == len(op.Inputs)
	for i, one := range given {
		inOrder = inOrder && one.Input == pb.InputIndex(i)
	}
	if inOrder {
		return op, ""
	}
	made, what := *op, "lists each input once, in their order"
	if len(given) < len(op.Inputs) {
		what, made.Inputs = "its op has the inputs that it lists", nil
		for _, one := range given {
			if one.Input != nothing {
				made.Inputs = append(made.Inputs, op.Inputs[one.Input])
			}
		}
		if len(made.Inputs) == 0 {
			return op, ""
		}
	}
	merge := &pb.MergeOp{}
	for i := range made.Inputs {
		merge.Inputs = append(merge.Inputs, &pb.MergeInput{Input: pb.InputIndex(i)})
	}
	made.Op = &pb.Op_Merge{Merge: merge}
	return &made, what
}

// merge rewrites a merge: to a file op, where the trees are known and llbm lays others than BuildKit.
func (w *writer) merge(ctx context.Context, v int) error {
	it := &w.graph.Vertices[v]
	op, what := listed(it.Op)
	if len(it.Op.Inputs) == 0 {
		f := &fileOp{}
		f.fail(-1, "there is nothing to merge")
		w.setMerge(v, f)
		return nil
	}
	if what != "" {
		w.set(it.Row, op, Row{Changes: []string{what}})
	}
	inputs, ok := w.inputs(v)
	if !ok || len(op.Inputs) != len(it.Op.Inputs) {
		return nil
	}
	if err := w.follow(ctx, v, inputs); err != nil || len(w.states[v].outputs) == 0 || w.states[v].outputs[0].agree {
		return err
	}
	return w.mergeByTrees(ctx, v, inputs)
}

// setMerge makes a merge a file op.
func (w *writer) setMerge(v int, f *fileOp) {
	it := &w.graph.Vertices[v]
	op := *it.Op
	op.Op = &pb.Op_File{File: &pb.FileOp{Actions: f.new}}
	w.set(it.Row, &op, f.Row)
}

// mergeByTrees makes of a merge a file op on its first or its last input, with the fewest actions.
func (w *writer) mergeByTrees(ctx context.Context, v int, inputs []trees) error {
	wanted := w.states[v].outputs[0].there
	var best *cursor
	for _, base := range []int{0, len(inputs) - 1} {
		c := w.bridgeFrom(ctx, v, base, inputs)
		if c.bridge(nil, c.pair(c.at), wanted.Tree()) == nil && c.isAt(wanted.Tree()) && (best == nil || len(c.new) < len(best.new)) {
			best = c
		}
		if ctx.Err() != nil {
			return ctx.Err()
		}
	}
	if best == nil || len(best.new) == 0 && best.do(neutral(), nothing) != nil {
		return nil
	}
	best.new[len(best.new)-1].Output = 0
	best.change(-1, "is a file op, by its trees")
	_, _, again := lists(inputs)
	outputs, err := rules.FileOp(ctx, &pb.FileOp{Actions: best.new}, again, rules.All)
	if err != nil {
		return ctx.Err()
	}
	w.states[v].outputs[0] = treesOf(best.here(), wanted, outputs[0])
	w.setMerge(v, best.fileOp)
	return nil
}

// bridgeFrom returns a cursor that begins with an input of a merge, and copies from all of them.
func (w *writer) bridgeFrom(ctx context.Context, v, base int, inputs []trees) *cursor {
	t := &treeWriter{fileOp: &fileOp{count: len(inputs), most: w.most, place: map[int]pb.InputIndex{}}, ctx: ctx}
	c := &cursor{treeWriter: t, number: -1, at: pb.InputIndex(base), compared: map[[2]*rules.Node]bool{}}
	for index, one := range inputs {
		t.pairs = append(t.pairs, pair{one.here, one.again.Tree()})
		c.from = append(c.from, source{index: pb.InputIndex(index)})
	}
	return c
}
