package layers

import (
	"errors"
	"fmt"
	"slices"
	"strings"
	"testing"

	"github.com/moby/buildkit/client/llb"
	"llbm/daemon/internal/graph"
	"llbm/daemon/internal/tree"
)

// madeOf returns a tree with empty files.
func madeOf(names ...string) tree.Tree {
	t := tree.Empty()
	for _, name := range slices.Compact(slices.Sorted(slices.Values(names))) {
		t = append(t, tree.Entry{Path: name, Mode: 0o644})
	}
	return t
}

// filesOf returns for each row the names of the files that its mkfiles and those before it make.
func filesOf(g *graph.Graph) map[int][]string {
	found := map[int][]string{}
	for v := range g.Vertices {
		it := &g.Vertices[v]
		for _, input := range it.Inputs {
			found[it.Row] = append(found[it.Row], found[g.Vertices[input].Row]...)
		}
		for _, action := range it.Op.GetFile().GetActions() {
			found[it.Row] = append(found[it.Row], strings.TrimPrefix(action.GetMkfile().GetPath(), "/"))
		}
	}
	return found
}

func file(name string) llb.StateOption {
	return func(s llb.State) llb.State { return s.File(llb.Mkfile("/"+name, 0o644, nil), llb.WithCustomName(name)) }
}

// told returns the names of the layers that a state has, each with the paths of its changes, or why there are none.
func told(t *testing.T, state llb.State, changed func(tree.Tree) tree.Tree) string {
	t.Helper()
	sent, err := state.Marshal(t.Context())
	if err != nil {
		t.Fatal(err)
	}
	def := sent.ToPB()
	g, err := graph.Load(def, def)
	if err != nil {
		t.Fatal(err)
	}
	files := filesOf(g)
	of := func(row, _ int) (tree.Tree, error) { return madeOf(files[row]...), nil }
	result, _ := of(g.Vertices[g.Result].Row, 0)
	layers, why, err := Of(def, changed(result), of)
	if err != nil {
		t.Fatal(err)
	}
	out := []string{why}
	for _, one := range layers {
		out = append(out, fmt.Sprintf("%s %d", one.Name, len(one.Changes)))
	}
	return strings.Join(out, "; ")
}

func TestEachOpThatMakesATreeOfAnotherIsALayer(t *testing.T) {
	same := func(t tree.Tree) tree.Tree { return t }
	a := llb.Scratch().With(file("a"))
	for want, state := range map[string]llb.State{
		"; a 1":           a,
		"; a 1; b 1":      a.With(file("b")),
		"; a 1; b 1; c 1": llb.Merge([]llb.State{a, llb.Scratch().With(file("b")), llb.Scratch().With(file("c"))}),
		"; a 1; b 1; a 1": llb.Merge([]llb.State{a.With(file("b")), a}),
	} {
		if got := told(t, state, same); got != want {
			t.Errorf("%q, not %q", got, want)
		}
	}
}

func TestLayersThatDoNotMakeTheResultAreNone(t *testing.T) {
	other := func(tree.Tree) tree.Tree { return madeOf("b") }
	if got := told(t, llb.Scratch().With(file("a")), other); got != "those of its steps do not make the result" {
		t.Error(got)
	}
}

func TestMoreStepsThanAnImageHasLayersAreNone(t *testing.T) {
	same := func(t tree.Tree) tree.Tree { return t }
	state := llb.Scratch()
	for i := range mostLayers {
		state = state.With(file(fmt.Sprintf("%04d", i)))
	}
	if got := told(t, state, same); strings.Count(got, ";") != mostLayers {
		t.Errorf("%d layers, not %d", strings.Count(got, ";"), mostLayers)
	}
	if got := told(t, state.With(file("more")), same); got != fmt.Sprintf("more than %d layers", mostLayers) {
		t.Errorf("%.80s", got)
	}
}

func TestATreeThatCanNotBeReadIsAnError(t *testing.T) {
	sent, err := llb.Scratch().With(file("a")).Marshal(t.Context())
	if err != nil {
		t.Fatal(err)
	}
	broken := errors.New("broken")
	if _, _, err := Of(sent.ToPB(), madeOf("a"), func(int, int) (tree.Tree, error) { return nil, broken }); !errors.Is(err, broken) {
		t.Error(err)
	}
}
