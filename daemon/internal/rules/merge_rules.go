package rules

import (
	"context"

	"github.com/moby/buildkit/solver/pb"
)

// Merge returns the result of a merge. Rule MergeInputs: BuildKit lays all inputs of the op in their order, each as often as
// the op has it, whatever the merge lists. Rule MergeNothing: a merge of no input fails. Rule MergeLayers: inputs are laid
// layer by layer, and what a layer removed is removed.
func Merge(ctx context.Context, op *pb.MergeOp, inputs []*Ref, like Rules) (*Ref, error) {
	chosen := inputs
	if !like.Has(MergeInputs) {
		chosen = nil
		for _, one := range op.GetInputs() {
			if one.Input != nothing {
				chosen = append(chosen, inputs[one.Input])
			}
		}
	}
	if len(chosen) == 0 {
		if like.Has(MergeNothing) {
			return nil, fails("there is nothing to merge")
		}
		return Based(Empty()), nil
	}
	if like.Has(MergeLayers) {
		return merged(chosen), ctx.Err()
	}
	t := Empty()
	for _, one := range chosen {
		if err := ctx.Err(); err != nil {
			return nil, err
		}
		t = laid(t, one.tree)
	}
	return Based(t), nil
}
