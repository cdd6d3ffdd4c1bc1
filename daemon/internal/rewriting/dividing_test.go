package rewriting

import (
	"context"
	"fmt"
	"math/rand"
	"slices"
	"testing"

	"github.com/moby/buildkit/solver/pb"
	"llbm/daemon/internal/graph"
	"llbm/daemon/internal/rules"
	"llbm/daemon/internal/tree"
)

// manyActions returns a file op on two inputs with many actions, each on an input or on an earlier result, some of which are outputs.
func manyActions(random *rand.Rand, count int) *pb.FileOp {
	op, outputs := &pb.FileOp{}, 0
	for number := range count {
		index := func() pb.InputIndex { return pb.InputIndex(random.Intn(number+3) - 1) }
		action := &pb.FileAction{Action: &pb.FileAction_Mkdir{Mkdir: &pb.FileActionMkDir{Path: fmt.Sprintf("/d%d", random.Intn(50)), Mode: 0o755, MakeParents: true}}}
		onto(action, index(), nothing, noOutput)
		if random.Intn(3) == 0 {
			action = onto(copyOf(nil, []string{fmt.Sprintf("c%d", random.Intn(20))}, keptMode, nil), index(), index(), noOutput)
		}
		if random.Intn(count/5) == 0 || number == count-1 {
			action.Output = pb.OutputIndex(outputs)
			outputs++
		}
		op.Actions = append(op.Actions, action)
	}
	return op
}

// The parts of an op make what the op makes, and none is more than llbm takes.
func TestThePartsOfAnOpMakeTheSame(t *testing.T) {
	ctx, random := context.Background(), rand.New(rand.NewSource(98))
	inputs := []*rules.Node{randomTree(random), rules.Empty()}
	for _, count := range []int{1, 1024, 1025, 1500, 3000} {
		op := manyActions(random, max(5, count))
		parts := divided(op, len(inputs))
		for _, part := range parts {
			if len(part.Op.Actions) > mostRecords || len(part.Inputs) > mostRecords {
				t.Errorf("%d actions, %d inputs", len(part.Op.Actions), len(part.Inputs))
			}
		}
		outputs, err := rules.FileOp(ctx, op, []*rules.Ref{rules.Based(inputs[0]), rules.Based(inputs[1])}, rules.None)
		if err != nil {
			t.Fatal(err)
		}
		made, err := DoParts(ctx, parts, inputs)
		if err != nil || !slices.EqualFunc(outputs, made, func(a *rules.Ref, b *rules.Node) bool { return rules.Equal(a.Tree(), b) }) {
			t.Errorf("%d actions, %d parts: %v", count, len(parts), err)
		}
	}
}

// An op that has to be more than 1,024 actions is divided, and its graph says what is a part of what.
func TestAnOpOfTooManyActionsIsDivided(t *testing.T) {
	const files = 600
	entries := tree.Tree{{Dir: true, Mode: 0o755}}
	var actions []*pb.FileAction
	for i := range files {
		path := fmt.Sprintf("f%04d", i)
		entries = append(entries, tree.Entry{Path: path, Mode: 0o604, Content: []byte("1")})
		mkfile := &pb.FileAction_Mkfile{Mkfile: &pb.FileActionMkFile{Path: "/" + path, Mode: 0o755, Data: []byte("2")}}
		base := pb.InputIndex(i)
		actions = append(actions, onto(&pb.FileAction{Action: mkfile}, base, nothing, noOutput))
	}
	actions[files-1].Output = 0
	given := []*rules.Node{rules.Of(entries)}
	def := definition(t, 1, func(inputs []*pb.Input) *pb.Op { return fileOf(inputs, actions...) })
	new, rows := rewritten(t, def, given)
	divided, further, parts, err := Divide(new, rows)
	if err != nil || len(further) != 1 || len(parts) != 1 {
		t.Fatal(len(further), len(parts), err)
	}
	g, err := graph.Read(divided, def, further...)
	if err != nil {
		t.Fatal(err)
	}
	v, ok := g.Find(1)
	first := g.Vertices[g.Vertices[v].Inputs[0]]
	if !ok || v != g.Result || first.Whole != v || first.Row != 1 || g.Vertices[v].Before != mostRecords {
		t.Errorf("%+v", g.Vertices)
	}
	if want, got := run(t, def, given, rules.All), run(t, divided, given, rules.None); !isSameResult(want, got) {
		t.Error("the parts make something else")
	}
}
