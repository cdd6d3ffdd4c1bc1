package rewriting

import (
	"context"
	"math/rand"
	"slices"
	"testing"

	"github.com/moby/buildkit/solver/pb"
	digest "github.com/opencontainers/go-digest"
	"llbm/daemon/internal/cases"
	"llbm/daemon/internal/graph"
	"llbm/daemon/internal/rules"
)

// withSources returns the graph of a file op on two local sources.
func withSources(t *testing.T, actions ...*pb.FileAction) *graph.Graph {
	t.Helper()
	def := &pb.Definition{}
	add := func(op *pb.Op) digest.Digest {
		entry, err := op.Marshal()
		if err != nil {
			t.Fatal(err)
		}
		def.Def = append(def.Def, entry)
		return digest.FromBytes(entry)
	}
	file := &pb.Op{Op: &pb.Op_File{File: &pb.FileOp{Actions: actions}}}
	for _, name := range []string{"local://a", "local://b"} {
		source := add(&pb.Op{Op: &pb.Op_Source{Source: &pb.SourceOp{Identifier: name}}})
		file.Inputs = append(file.Inputs, &pb.Input{Digest: source})
	}
	add(&pb.Op{Inputs: []*pb.Input{{Digest: add(file)}}})
	g, err := graph.Read(def, def)
	if err != nil {
		t.Fatal(err)
	}
	return g
}

func TestEachRuleByWhichAnActionEndsOtherwiseIsPossible(t *testing.T) {
	random, ctx := rand.New(rand.NewSource(11)), context.Background()
	named := 0
	for number := range cases.Of(3_000) {
		var trees []*rules.Node
		for range 2 { // the root of what BuildKit's client sends is 0755
			trees = append(trees, randomTree(random).WithEntryOf(rules.Empty()))
		}
		action := randomAction(random, number%2 == 0, trees[0], trees[1])
		g := withSources(t, action)
		found, err := rules.Possible(ctx, g.Vertices)
		if err != nil {
			t.Fatal(err)
		}
		op := g.Vertices[2].Op
		made, err := rules.Compare(ctx, op, op, nil, []*rules.Ref{rules.Based(trees[0]), rules.Based(trees[1])}, trees, nil)
		if err != nil {
			t.Fatal(err)
		}
		for _, step := range made.Steps {
			for _, line := range step.Lines {
				for _, name := range line.Notes {
					named++
					isNamed := func(one rules.Possibility) bool { return one.Vertex == 2 && one.Name == name }
					if name != rules.Rewriting && !slices.ContainsFunc(found, isNamed) {
						t.Fatalf("case %d: %v: %s has no note", number, action, line)
					}
				}
			}
		}
	}
	if named < cases.Of(500) {
		t.Error(named)
	}
}
