package rewriting

import (
	"context"
	"strings"
	"testing"

	"github.com/moby/buildkit/solver/pb"
	"llbm/daemon/internal/examples"
	"llbm/daemon/internal/graph"
	"llbm/daemon/internal/rules"
)

// sourceTrees has the trees of an example's sources, as they are and as BuildKit's client sends them.
type sourceTrees struct {
	t     *testing.T
	texts map[string]string
}

func (s sourceTrees) Source(ctx context.Context, v *graph.Vertex) (here, there *rules.Node, err error) {
	s.t.Helper()
	source := v.Op.GetSource()
	here, err = rules.Read(ctx, strings.NewReader(s.texts[strings.TrimPrefix(source.Identifier, "local://")]), nil)
	if err != nil {
		s.t.Fatal(err)
	}
	there, err = rules.Sent(ctx, source, here, rules.All)
	return here, there, err
}

// result does an example's definition by some rules, and returns the result, nil if it fails.
func result(t *testing.T, def *pb.Definition, texts map[string]string, like rules.Rules) *rules.Ref {
	t.Helper()
	g, err := graph.Read(def, def)
	if err != nil {
		t.Fatal(err)
	}
	outputs := make([][]*rules.Ref, len(g.Vertices))
	for v := range g.Vertices {
		var inputs []*rules.Ref
		for i, input := range g.Vertices[v].Inputs {
			inputs = append(inputs, outputs[input][g.Vertices[v].Op.Inputs[i].Index])
		}
		op := g.Vertices[v].Op
		switch {
		case op.GetSource() != nil:
			here, there, err := sourceTrees{t, texts}.Source(context.Background(), &g.Vertices[v])
			if err != nil {
				t.Fatal(err)
			}
			if outputs[v] = []*rules.Ref{rules.Based(here)}; like == rules.All {
				outputs[v] = []*rules.Ref{rules.Based(there)}
			}
		case op.GetFile() != nil:
			outputs[v], err = rules.FileOp(context.Background(), op.GetFile(), inputs, like)
		default:
			var one *rules.Ref
			one, err = rules.Merge(context.Background(), op.GetMerge(), inputs, like)
			outputs[v] = []*rules.Ref{one}
		}
		if err != nil {
			return nil
		}
	}
	return outputs[g.Result][g.Output]
}

func TestLeastExamplesEndAsInBuildKit(t *testing.T) {
	all, err := examples.All()
	if err != nil {
		t.Fatal(err)
	}
	for _, one := range all {
		def := &pb.Definition{}
		if err := def.Unmarshal(one.Definition); err != nil {
			t.Fatal(err)
		}
		want := result(t, def, one.Trees, rules.All)
		for _, known := range []bool{false, true} {
			var trees Trees
			if known {
				trees = sourceTrees{t, one.Trees}
			}
			new, rows, err := Definition(context.Background(), def, trees)
			if err != nil {
				t.Fatal(err)
			}
			if !isSameResult(result(t, new, one.Trees, rules.All), want) {
				t.Errorf("%s: BuildKit makes another tree: %v", one.Shows, rows)
			}
			isEqual := isSameResult(result(t, new, one.Trees, rules.None), want)
			if expected := one.Adopted == examples.Always || known && one.Adopted == examples.ByTrees; isEqual != expected {
				t.Errorf("%s: %s: with trees %t: equal %t: %v", one.Rule, one.Shows, known, isEqual, rows)
			}
		}
	}
}
