package rules

import (
	"context"
	"testing"

	"github.com/moby/buildkit/client/llb"
	"github.com/moby/buildkit/solver/pb"
	"llbm/daemon/internal/graph"
)

func verticesOf(t *testing.T, state llb.State) []graph.Vertex {
	t.Helper()
	sent, err := state.Marshal(context.Background())
	if err != nil {
		t.Fatal(err)
	}
	def := &pb.Definition{Def: sent.Def}
	g, err := graph.Load(def, def)
	if err != nil {
		t.Fatal(err)
	}
	return g.Vertices
}

// Layers are those of file ops, executions and merges, and not of actions.
func TestAResultWithManyLayersIsDeep(t *testing.T) {
	one := llb.Scratch().File(llb.Mkfile("/b", 0o644, nil))
	for name, layer := range map[string]func(llb.State) llb.State{
		"file ops":   func(s llb.State) llb.State { return s.File(llb.Mkdir("/a", 0o755).Mkdir("/a/b", 0o755)) },
		"executions": func(s llb.State) llb.State { return s.Run(llb.Args([]string{"true"})).Root() },
		"merges":     func(s llb.State) llb.State { return llb.Merge([]llb.State{s, one}) },
	} {
		state := llb.Local("s")
		for range mostLayers - 1 {
			state = layer(state)
		}
		if v := Deep(verticesOf(t, state)); v != -1 {
			t.Errorf("%s: %d layers are many, at vertex %d", name, mostLayers, v)
		}
		vertices := verticesOf(t, layer(state))
		if v := Deep(vertices); v != len(vertices)-1 {
			t.Errorf("%s: vertex %d of %d", name, v, len(vertices))
		}
	}
}
