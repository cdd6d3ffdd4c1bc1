// Package layers finds the layers that BuildKit makes of a result: what each op changed of what was there before.
package layers

import (
	"fmt"

	"github.com/moby/buildkit/solver/pb"
	"llbm/daemon/internal/graph"
	"llbm/daemon/internal/results"
	"llbm/daemon/internal/rules"
	"llbm/daemon/internal/tree"
)

// mostLayers bounds the layers of a result.
const mostLayers = 400

// A place is an output of a vertex; no vertex is the empty tree.
type place struct{ row, output int }

var nowhere = place{-1, 0}

// A step is what an op made of what was there before.
type step struct{ before, after place }

// A chain finds the layers of BuildKit: one for each op that makes a tree of another one, and for a merge those of its inputs.
type chain struct {
	graph *graph.Graph // of the definition as it was sent
	rows  map[int]int  // the vertices of rows
	steps []step
}

// of adds the steps that lead to a place.
func (c *chain) of(at place) error {
	if at == nowhere {
		return nil
	}
	v := &c.graph.Vertices[c.rows[at.row]]
	input := func(i int64) place {
		if i < 0 || i >= int64(len(v.Inputs)) {
			return nowhere
		}
		return place{c.graph.Vertices[v.Inputs[i]].Row, int(v.Op.Inputs[i].Index)}
	}
	before := nowhere
	switch op := v.Op.Op.(type) {
	case *pb.Op_Merge:
		for _, one := range op.Merge.GetInputs() {
			if err := c.of(input(int64(one.Input))); err != nil {
				return err
			}
		}
		return nil
	case *pb.Op_File:
		before = input(baseOf(op.File, len(v.Inputs), at.output))
	case *pb.Op_Exec:
		if bases := rules.Bases(op.Exec, c.inputs(v)); at.output < len(bases) && bases[at.output] != nil {
			before = *bases[at.output]
		}
	}
	if err := c.of(before); err != nil {
		return err
	}
	if len(c.steps) == mostLayers {
		return fmt.Errorf("more than %d layers", mostLayers)
	}
	c.steps = append(c.steps, step{before, at})
	return nil
}

// inputs returns the places that the inputs of a vertex name.
func (c *chain) inputs(v *graph.Vertex) []*place {
	var out []*place
	for i, input := range v.Inputs {
		out = append(out, &place{c.graph.Vertices[input].Row, int(v.Op.Inputs[i].Index)})
	}
	return out
}

// baseOf returns the input of a file op on which the actions work that lead to an output, or a number below 0.
func baseOf(op *pb.FileOp, inputs, output int) int64 {
	at := int64(-1)
	for i, action := range op.GetActions() {
		if int(action.Output) == output {
			at = int64(inputs + i)
		}
	}
	for at >= int64(inputs) && at < int64(inputs+len(op.GetActions())) {
		at = int64(op.Actions[at-int64(inputs)].Input)
	}
	return at
}

// Of returns the layers that BuildKit makes of the result of a definition as it was sent, given the trees of outputs by rows. If they do
// not make the result there are none, and it is said why.
func Of(sent *pb.Definition, result tree.Tree, treeOf func(row, output int) (tree.Tree, error)) (out []results.Layer, why string, err error) {
	g, err := graph.Load(sent, sent)
	if err != nil {
		return nil, "", nil // what was sent can't be read by itself
	}
	c := &chain{graph: g, rows: map[int]int{}}
	for v := range g.Vertices {
		c.rows[g.Vertices[v].Row] = v
	}
	if err := c.of(place{g.Vertices[g.Result].Row, g.Output}); err != nil {
		return nil, err.Error(), nil
	}
	seen := seen{nowhere: tree.Empty()}
	out, made := []results.Layer{}, tree.Empty()
	for _, one := range c.steps {
		before, err := seen.at(one.before, treeOf)
		if err != nil {
			return nil, "", err
		}
		after, err := seen.at(one.after, treeOf)
		if err != nil {
			return nil, "", err
		}
		changes := tree.Changes(before, after)
		made = tree.Apply(made, changes)
		out = append(out, results.Layer{Name: g.Vertices[c.rows[one.after.row]].Name, Changes: changes})
	}
	if !tree.Equal(made, result) {
		return nil, "those of its steps do not make the result", nil
	}
	return out, "", nil
}

// seen are the trees at places, each of which is asked for once.
type seen map[place]tree.Tree

func (s seen) at(at place, treeOf func(row, output int) (tree.Tree, error)) (tree.Tree, error) {
	if t, ok := s[at]; ok {
		return t, nil
	}
	t, err := treeOf(at.row, at.output)
	if err != nil {
		return nil, err
	}
	s[at] = t
	return t, nil
}
