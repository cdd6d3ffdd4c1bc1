package gathering

import (
	"github.com/moby/buildkit/solver/pb"
	"llbm/daemon/internal/graph"
)

// bases returns the vertices whose trees something builds on: a file action, a mount that can be written, a merge, a difference or
// the result. From all others there are only copies, or they are only read. BuildKit, too, reads the files of a source that is a base
// anew in the next build.
func bases(g *graph.Graph) map[int]bool {
	out := map[int]bool{g.Result: true}
	for v := range g.Vertices {
		add := func(input int64) {
			if inputs := g.Vertices[v].Inputs; input >= 0 && input < int64(len(inputs)) {
				out[inputs[input]] = true
			}
		}
		switch op := g.Vertices[v].Op.Op.(type) {
		case *pb.Op_File:
			for _, action := range op.File.GetActions() {
				add(int64(action.Input))
			}
		case *pb.Op_Exec:
			for _, mount := range op.Exec.GetMounts() {
				if !mount.Readonly {
					add(int64(mount.Input))
				}
			}
		case *pb.Op_Merge, *pb.Op_Diff:
			for i := range g.Vertices[v].Inputs {
				add(int64(i))
			}
		}
	}
	return out
}
