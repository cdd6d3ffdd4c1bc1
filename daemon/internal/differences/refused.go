package differences

import (
	"github.com/moby/buildkit/solver/pb"
	"google.golang.org/grpc/codes"
	"google.golang.org/grpc/status"
	"llbm/daemon/internal/graph"
	"llbm/daemon/internal/rules"
)

// Refuse refuses the executions that BuildKit refuses as it loads a definition, and llbm does not. No client gets an entitlement.
// A definition that runs by the rules of llbm alone is not looked at.
func (d *Comparer) Refuse(g *graph.Graph) error {
	if d.Literal || !g.Canonical {
		return nil
	}
	for v := range g.Vertices {
		exec := g.Vertices[v].Op.GetExec()
		if exec == nil {
			continue
		}
		if err := refused(exec); err != nil {
			return g.Wrap(v, err)
		}
	}
	return nil
}

func refused(exec *pb.ExecOp) error {
	why, isDenied := rules.Refusal(exec)
	code := codes.InvalidArgument
	switch {
	case why == "":
		return nil
	case isDenied:
		code = codes.PermissionDenied
	}
	return status.Error(code, "failed to load LLB: "+why)
}
