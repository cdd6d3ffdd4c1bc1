package rewriting

import (
	"context"

	"github.com/moby/buildkit/solver/pb"
	"llbm/daemon/internal/graph"
	"llbm/daemon/internal/rules"
)

// mostRecords is how many actions, and how many inputs, llbm takes of an op.
const mostRecords = 1024

// Divide returns a definition that does the same, in which each file op with more actions than llbm takes is several ops, one on the
// other. It also returns these parts, by row, and of which row each further entry is a part.
func Divide(def *pb.Definition, rows Rows) (*pb.Definition, []int, map[int][]graph.Part, error) {
	parts := map[int][]graph.Part{}
	for row := range rows {
		op := &pb.Op{}
		if err := op.Unmarshal(def.Def[row]); err != nil {
			return nil, nil, nil, err
		}
		if len(op.GetFile().GetActions()) > mostRecords {
			parts[row] = divided(op.GetFile(), len(op.Inputs))
		}
	}
	new, further, err := graph.Divide(def, parts)
	return new, further, parts, err
}

// DoParts does parts one after the other, by the rules of llbm, and returns the outputs of the last one.
func DoParts(ctx context.Context, parts []graph.Part, inputs []*rules.Node) ([]*rules.Node, error) {
	var made [][]*rules.Ref
	for _, part := range parts {
		var on []*rules.Ref
		for _, in := range part.Inputs {
			if in.Part == graph.WholeOp {
				on = append(on, rules.Based(inputs[in.Index]))
			} else {
				on = append(on, made[in.Part][in.Index])
			}
		}
		outputs, err := rules.FileOp(ctx, part.Op, on, rules.None)
		if err != nil {
			return nil, err
		}
		made = append(made, outputs)
	}
	var out []*rules.Node
	for _, one := range made[len(made)-1] {
		out = append(out, one.Tree())
	}
	return out, nil
}

// An operand is what an action of a part works on or copies from: nothing, an input of the part, or what an action of the part made.
type operand struct {
	isInput, isMade bool
	at              int
}

// A cut is a part while it is made.
type cut struct {
	actions  []*pb.FileAction
	operands [][2]operand
	inputs   []graph.PartInput
	places   map[graph.PartInput]int // of the inputs
	outputs  []pb.OutputIndex        // of the actions
	count    int                     // of the outputs
}

// A dividing is a file op while it is divided.
type dividing struct {
	count int // the op's inputs
	cuts  []*cut
	made  [][2]int // of each action: its part, and its place there
}

func divided(op *pb.FileOp, count int) []graph.Part {
	d := &dividing{count: count}
	d.begin()
	for _, action := range op.Actions {
		d.add(action, d.operandsOf(action))
	}
	d.setOutputs(op.Actions)
	var parts []graph.Part
	for _, one := range d.cuts {
		parts = append(parts, one.part())
	}
	return parts
}

func (d *dividing) begin() { d.cuts = append(d.cuts, &cut{places: map[graph.PartInput]int{}}) }

func (d *dividing) last() *cut { return d.cuts[len(d.cuts)-1] }

// operandsOf returns the operands of an action, for which the last part has room.
func (d *dividing) operandsOf(action *pb.FileAction) [2]operand {
	if one := d.last(); len(one.actions) == mostRecords || len(one.inputs)+2 > mostRecords {
		d.begin()
	}
	return [2]operand{d.operand(action.Input), d.operand(action.SecondaryInput)}
}

func (d *dividing) operand(index pb.InputIndex) operand {
	number := int(index) - d.count
	switch {
	case index < 0:
		return operand{}
	case number < 0:
		return d.last().input(graph.PartInput{Part: graph.WholeOp, Index: int(index)})
	}
	part, place := d.made[number][0], d.made[number][1]
	if part == len(d.cuts)-1 {
		return operand{isMade: true, at: place}
	}
	return d.last().input(graph.PartInput{Part: part, Index: int(d.cuts[part].output(place))})
}

// add adds an action to the last part.
func (d *dividing) add(action *pb.FileAction, on [2]operand) {
	one := d.last()
	d.made = append(d.made, [2]int{len(d.cuts) - 1, len(one.actions)})
	one.actions, one.operands, one.outputs = append(one.actions, action), append(one.operands, on), append(one.outputs, noOutput)
}

// setOutputs gives the last part the outputs of the op. If other parts make one of them, a further part does nothing but hand them on.
func (d *dividing) setOutputs(actions []*pb.FileAction) {
	var outputs []int
	areLast := true
	for number, action := range actions {
		if action.Output != noOutput {
			outputs = append(outputs, number)
			areLast = areLast && d.made[number][0] == len(d.cuts)-1
		}
	}
	if areLast {
		for _, number := range outputs {
			d.last().outputs[d.made[number][1]] = actions[number].Output
		}
		return
	}
	d.begin()
	for i, number := range outputs {
		d.add(neutral(), [2]operand{d.operand(pb.InputIndex(d.count + number))})
		d.last().outputs[i] = actions[number].Output
	}
}

func (c *cut) input(from graph.PartInput) operand {
	at, ok := c.places[from]
	if !ok {
		at = len(c.inputs)
		c.inputs, c.places[from] = append(c.inputs, from), at
	}
	return operand{isInput: true, at: at}
}

// output returns the output that an action's result is, which a later part reads.
func (c *cut) output(place int) pb.OutputIndex {
	if c.outputs[place] == noOutput {
		c.outputs[place] = pb.OutputIndex(c.count)
		c.count++
	}
	return c.outputs[place]
}

func (c *cut) part() graph.Part {
	index := func(one operand) pb.InputIndex {
		switch {
		case one.isInput:
			return pb.InputIndex(one.at)
		case one.isMade:
			return pb.InputIndex(len(c.inputs) + one.at)
		}
		return nothing
	}
	op := &pb.FileOp{}
	for i, action := range c.actions {
		one := *action
		one.Input, one.SecondaryInput, one.Output = index(c.operands[i][0]), index(c.operands[i][1]), c.outputs[i]
		op.Actions = append(op.Actions, &one)
	}
	return graph.Part{Op: op, Inputs: c.inputs}
}
