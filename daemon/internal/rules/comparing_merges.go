package rules

import (
	"context"

	"github.com/moby/buildkit/solver/pb"
)

// mergedHere returns what llbm makes of a merge, which may run as a file op; nil if it fails.
func mergedHere(ctx context.Context, run *pb.Op, here []*Node) ([]*Node, error) {
	if run.GetMerge() != nil {
		one, err := Merge(ctx, run.GetMerge(), asRefs(here), None)
		if err != nil {
			return nil, err
		}
		return []*Node{one.tree}, nil
	}
	outputs, err := FileOp(ctx, run.GetFile(), asRefs(here), None)
	if _, ok := failed(err); ok && ctx.Err() == nil {
		return nil, nil
	}
	return asTrees(outputs), err
}

// compareMerges does a merge.
func compareMerges(ctx context.Context, sent *pb.MergeOp, run *pb.Op, there []*Ref, here []*Node, read Reading) (c *Compared, err error) {
	c = &Compared{}
	if here != nil {
		if c.Here, err = mergedHere(ctx, run, here); err != nil {
			return nil, err
		}
	}
	if there == nil {
		return c, nil
	}
	one, fault := Merge(ctx, sent, there, All)
	if err := ctx.Err(); err != nil {
		return nil, err
	}
	if fault == nil {
		c.There = []*Ref{one}
	} else {
		c.Fails = fault.Error()
	}
	if here == nil || c.There == nil && c.Here == nil || c.There != nil && c.Here != nil && !read.isSeen(pair{c.There[0].tree, c.Here[0]}) {
		return c, nil
	}
	c.Steps, err = stepsOfMerge(ctx, sent, c, there, here)
	return c, err
}

// stepsOfMerge returns how a merge ends otherwise that does not fail in both.
func stepsOfMerge(ctx context.Context, sent *pb.MergeOp, c *Compared, there []*Ref, here []*Node) ([]Step, error) {
	by := func() *causes {
		return causesOf(rulesOfMerge, func(like Rules) (*Node, error) {
			made, err := Merge(ctx, sent, there, like)
			if err != nil {
				return nil, err
			}
			return made.tree, nil
		})
	}
	switch {
	case c.There == nil:
		return []Step{{Action: -1, Lines: []Line{lineOf("fails: "+c.Fails, by().ofFault())}}}, ctx.Err()
	case c.Here == nil:
		return []Step{{Action: -1, Lines: []Line{{Words: "does not fail (here it does)", Notes: []string{Rewriting}}}}}, nil
	}
	before := pairsOf(asTrees(there), here)
	s := &search{ctx: ctx, most: mostLines}
	if err := s.below("", pair{c.There[0].tree, c.Here[0]}, before); err != nil || len(s.found) == 0 {
		return nil, err
	}
	return []Step{stepOf(-1, s, len(before) > 0 || len(there) != len(here), by().of)}, ctx.Err()
}
