package rules

import (
	"github.com/moby/buildkit/solver/pb"
	"llbm/daemon/internal/graph"
)

// Depth is the name of the note that a result has many layers.
const Depth = "Depth"

// mostLayers is how many layers BuildKit's overlayfs surely takes. A kernel takes 500, and fewer fit into the options of its mount if
// the names of the snapshots are long.
const mostLayers = 400

// Deep returns the first vertex whose result has more layers than BuildKit's overlayfs surely takes, or -1.
func Deep(vertices []graph.Vertex) int {
	depths := make([][]int, len(vertices))
	for v := range vertices {
		it := &vertices[v]
		var inputs []int
		for i, input := range it.Inputs {
			depth := 0
			if index := int(it.Op.Inputs[i].Index); index >= 0 && index < len(depths[input]) {
				depth = depths[input][index]
			}
			inputs = append(inputs, depth)
		}
		depths[v] = depthsOf(it.Op, inputs)
		for _, depth := range depths[v] {
			if depth > mostLayers {
				return v
			}
		}
	}
	return -1
}

// depthsOf returns how many layers the outputs of an op have: one more than what they are changes of.
func depthsOf(op *pb.Op, inputs []int) []int {
	above := func(input pb.InputIndex) int {
		if input < 0 || int(input) >= len(inputs) {
			return 1
		}
		return inputs[input] + 1
	}
	switch {
	case op.GetMerge() != nil: // what its first input has is shared
		return []int{above(0)}
	case op.GetExec() != nil:
		mounts := outputsOf(op.GetExec())
		out := make([]int, len(mounts))
		for number := range out {
			if mount := mounts[number]; mount != nil {
				out[number] = above(mount.Input)
			}
		}
		return out
	case op.GetFile() != nil:
		return depthsOfActions(op.GetFile().Actions, inputs)
	}
	return []int{1}
}

// depthsOfActions does the same for a file op, whose results are layers if they are outputs or used twice.
func depthsOfActions(actions []*pb.FileAction, inputs []int) []int {
	uses, outputs := map[int]int{}, map[int]int{}
	for _, one := range actions {
		uses[int(one.Input)]++
		uses[int(one.SecondaryInput)]++
	}
	results := make([]int, len(actions)) // of what each action works in
	layers := make([]bool, len(actions))
	for number, one := range actions {
		base := int(one.Input) - len(inputs)
		switch {
		case one.Input >= 0 && base < 0:
			results[number] = inputs[one.Input] + 1
		case base >= 0 && base < number && !layers[base]:
			results[number] = results[base]
		case base >= 0 && base < number:
			results[number] = results[base] + 1
		default:
			results[number] = 1
		}
		layers[number] = one.Output != nothing || uses[len(inputs)+number] > 1
		if one.Output != nothing {
			outputs[int(one.Output)] = results[number]
		}
	}
	out := make([]int, len(outputs))
	for number := range out {
		out[number] = outputs[number]
	}
	return out
}
