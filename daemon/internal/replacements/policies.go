package replacements

import (
	"context"
	"errors"

	"github.com/moby/buildkit/solver/pb"
	"github.com/moby/buildkit/sourcepolicy"
	spb "github.com/moby/buildkit/sourcepolicy/pb"
	"google.golang.org/grpc/codes"
	"google.golang.org/grpc/status"
	"llbm/daemon/internal/graph"
)

// convert applies policies for sources: a source is denied, or becomes another one.
func convert(ctx context.Context, def *pb.Definition, policies []*spb.Policy) (*pb.Definition, error) {
	if len(policies) == 0 {
		return def, nil
	}
	engine := sourcepolicy.NewEngine(policies)
	return graph.Rewrite(def, func(_ int, op *pb.Op) (bool, error) {
		source := op.GetSource()
		if source == nil {
			return false, nil
		}
		return evaluate(ctx, engine, source)
	})
}

// evaluate applies policies to a source, and returns whether it became another one.
func evaluate(ctx context.Context, engine *sourcepolicy.Engine, source *pb.SourceOp) (bool, error) {
	changed, err := engine.Evaluate(ctx, source)
	if errors.Is(err, sourcepolicy.ErrSourceDenied) {
		return false, status.Error(codes.PermissionDenied, err.Error())
	}
	return changed, err
}
