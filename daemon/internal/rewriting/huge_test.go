package rewriting

import (
	"testing"

	"github.com/moby/buildkit/solver/pb"
	"llbm/daemon/internal/rules"
)

func fileOf(inputs []*pb.Input, actions ...*pb.FileAction) *pb.Op {
	return &pb.Op{Inputs: inputs, Op: &pb.Op_File{File: &pb.FileOp{Actions: actions}}}
}

// onto sets what an action works on, what it copies from, and which output it is.
func onto(action *pb.FileAction, base, second pb.InputIndex, output pb.OutputIndex) *pb.FileAction {
	action.Input, action.SecondaryInput, action.Output = base, second, output
	return action
}

// A tree that has itself twice, forty times, has more paths than fit anywhere. What differs at all of them is left as it is, as an
// op has a bound of actions.
func TestATreeThatHasItselfManyTimesIsRewrittenAsFarAsItFits(t *testing.T) {
	names := []string{"a", "b"}
	made := []func([]*pb.Input) *pb.Op{func([]*pb.Input) *pb.Op {
		mkfile := &pb.FileAction_Mkfile{Mkfile: &pb.FileActionMkFile{Path: "/f", Mode: 0o600, Data: []byte("x")}}
		return fileOf(nil, onto(&pb.FileAction{Action: mkfile}, nothing, nothing, 0))
	}}
	for range 40 {
		made = append(made, func(inputs []*pb.Input) *pb.Op {
			return fileOf(inputs[len(inputs)-1:],
				onto(copyOf(nil, names[:1], keptMode, nil), nothing, 0, noOutput), onto(copyOf(nil, names[1:], keptMode, nil), 1, 0, 0))
		})
	}
	over := func(mode int32) func([]*pb.Input) *pb.Op {
		return func(inputs []*pb.Input) *pb.Op {
			action := copyOf(nil, nil, mode, nil)
			action.GetCopy().DirCopyContents = true
			return fileOf(inputs[len(inputs)-1:], onto(action, 0, 0, 0))
		}
	}
	def := definition(t, 0, append(made, over(0o711))...)
	if _, rows := rewritten(t, def, nil); len(rows) > 0 {
		t.Error(rows)
	}
	// Copied to where nothing is, the same directories are a few actions.
	chowned := func(inputs []*pb.Input) *pb.Op {
		action := copyOf(nil, []string{"n", "m"}, 0o711, chown(7, 8))
		action.GetCopy().CreateDestPath = true
		return fileOf(inputs[len(inputs)-1:], onto(action, nothing, 0, 0))
	}
	def = definition(t, 0, append(made, chowned)...)
	new, rows := rewritten(t, def, nil)
	if want, got := run(t, def, nil, rules.All), run(t, new, nil, rules.None); !isSameResult(want, got) || len(rows) != 1 {
		t.Error(rows)
	}
}
