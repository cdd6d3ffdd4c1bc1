// Package gateway is what frontends call: in a client's process through the daemon's socket, or in a child of the daemon.
package gateway

import (
	"context"
	"fmt"
	"strings"
	"sync/atomic"
	"time"

	controlapi "github.com/moby/buildkit/api/services/control"
	apitypes "github.com/moby/buildkit/api/types"
	"github.com/moby/buildkit/client/buildid"
	"github.com/moby/buildkit/client/llb/sourceresolver"
	gatewaypb "github.com/moby/buildkit/frontend/gateway/pb"
	"github.com/moby/buildkit/solver/pb"
	spb "github.com/moby/buildkit/sourcepolicy/pb"
	"github.com/moby/buildkit/util/imageutil"
	"google.golang.org/grpc/codes"
	"google.golang.org/grpc/status"
	"llbm/daemon/internal/builds"
	"llbm/daemon/internal/peers"
	"llbm/daemon/internal/replacements"
	"llbm/daemon/internal/requests"
	"llbm/daemon/internal/results"
	"llbm/daemon/internal/solver"
)

// A Frontend is asked to solve a build.
type Frontend struct {
	Name     string
	Options  map[string]string
	Inputs   map[string]*pb.Definition
	IsCalled bool // whether another frontend that is a child calls it
}

// Frontends run frontends by their names.
type Frontends interface {
	Run(ctx context.Context, b *builds.Build, frontend Frontend) (*Returned, error)
}

// A Gateway serves frontends.
type Gateway struct {
	gatewaypb.UnimplementedLLBBridgeServer
	Builds    *builds.Builds
	Solver    *solver.Solver
	Frontends Frontends
	Workers   []*apitypes.WorkerRecord
	only      *child
}

// A child is the frontend that a gateway serves alone.
type child struct {
	build    *builds.Build
	inputs   map[string]*pb.Definition
	returned chan *gatewaypb.ReturnRequest
}

// For returns a gateway for one frontend of a build, and where its result comes.
func (g *Gateway) For(b *builds.Build, frontend Frontend) (*Gateway, <-chan *gatewaypb.ReturnRequest) {
	one := *g
	one.only = &child{build: b, inputs: frontend.Inputs, returned: make(chan *gatewaypb.ReturnRequest, 1)}
	return &one, one.only.returned
}

// build returns the build that a call belongs to.
func (g *Gateway) build(ctx context.Context) (*builds.Build, error) {
	if g.only != nil {
		return g.only.build, nil
	}
	user, err := peers.User(ctx)
	if err != nil {
		return nil, status.Error(codes.Unauthenticated, err.Error())
	}
	id := buildid.FromIncomingContext(ctx)
	if id == "" {
		return nil, status.Error(codes.InvalidArgument, "no buildid found in context")
	}
	return g.Builds.Get(ctx, user, id)
}

// Ping says what the gateway can do.
func (g *Gateway) Ping(ctx context.Context, _ *gatewaypb.PingRequest) (*gatewaypb.PongResponse, error) {
	if _, err := g.build(ctx); err != nil {
		return nil, err
	}
	return &gatewaypb.PongResponse{FrontendAPICaps: caps(gatewayCaps, noGatewayCaps), LLBCaps: caps(llbCaps, noLLBCaps), Workers: g.Workers}, nil
}

var lastID atomic.Uint64

// Solve makes a result of a definition, which is solved when it is used, or of another frontend.
func (g *Gateway) Solve(ctx context.Context, req *gatewaypb.SolveRequest) (*gatewaypb.SolveResponse, error) {
	b, err := g.build(ctx)
	if err != nil {
		return nil, err
	}
	if err := refused(req); err != nil {
		return nil, err
	}
	if len(req.CacheImports) > 0 {
		b.Warn(builds.Caches, builds.NoImports)
	}
	if err := b.Hold(req.Size()); err != nil {
		return nil, err
	}
	var r *Returned
	switch {
	case req.Frontend != "":
		defer b.Free(req.Size())
		if err := replacements.Ask(ctx, b, req.FrontendOpt); err != nil {
			return nil, err
		}
		r, err = g.Frontends.Run(ctx, b, Frontend{
			Name: req.Frontend, Options: req.FrontendOpt, Inputs: req.FrontendInputs, IsCalled: g.only != nil,
		})
	case solver.IsEmpty(req.Definition):
		r = &Returned{Single: results.Empty(b.Layers)}
	default:
		r, err = g.lazily(b, req.Definition, req.SourcePolicies)
	}
	if err != nil {
		return nil, err
	}
	if req.Evaluate {
		if _, err := r.Results(ctx); err != nil {
			return nil, err
		}
	}
	return r.response(req)
}

func refused(req *gatewaypb.SolveRequest) error {
	if req.Final {
		return status.Error(codes.Unimplemented, "llbmd has no results that are returned with Solve: call Return")
	}
	for _, policy := range req.SourcePolicies {
		if policy == nil {
			return status.Error(codes.InvalidArgument, "invalid nil source policy")
		}
		if err := requests.CheckPolicy(policy); err != nil {
			return err
		}
	}
	return requests.CheckFields("SolveRequest", req.XXX_unrecognized)
}

func (g *Gateway) lazily(b *builds.Build, def *pb.Definition, policies []*spb.Policy) (*Returned, error) {
	lazy := g.Solver.Lazily(b, fmt.Sprintf("%s-%d", b.Ref, lastID.Add(1)), def, policies)
	return &Returned{Single: lazy}, b.AddResult(lazy)
}

// result returns a result of a build by its ID; without an ID it is the empty one.
func result(b *builds.Build, id string) (*results.Lazy, error) {
	if id == "" {
		return results.Empty(b.Layers), nil
	}
	if lazy := b.Result(id); lazy != nil {
		return lazy, nil
	}
	return nil, status.Errorf(codes.NotFound, "no result %q", id)
}

func (g *Gateway) solved(ctx context.Context, id string) (*results.Result, error) {
	b, err := g.build(ctx)
	if err != nil {
		return nil, err
	}
	lazy, err := result(b, id)
	if err != nil {
		return nil, err
	}
	return lazy.Result(ctx)
}

// Evaluate solves a result.
func (g *Gateway) Evaluate(ctx context.Context, req *gatewaypb.EvaluateRequest) (*gatewaypb.EvaluateResponse, error) {
	_, err := g.solved(ctx, req.Ref)
	return &gatewaypb.EvaluateResponse{}, err
}

// Inputs returns the definitions that the frontend was called with.
func (g *Gateway) Inputs(ctx context.Context, _ *gatewaypb.InputsRequest) (*gatewaypb.InputsResponse, error) {
	b, err := g.build(ctx)
	if err != nil {
		return nil, err
	}
	if g.only != nil {
		return &gatewaypb.InputsResponse{Definitions: g.only.inputs}, nil
	}
	inputs, _, err := b.Given(ctx)
	return &gatewaypb.InputsResponse{Definitions: inputs}, err
}

// Warn shows a frontend's warning.
func (g *Gateway) Warn(ctx context.Context, req *gatewaypb.WarnRequest) (*gatewaypb.WarnResponse, error) {
	b, err := g.build(ctx)
	if err != nil {
		return nil, err
	}
	for _, r := range req.Ranges {
		if r == nil {
			return nil, status.Error(codes.InvalidArgument, "invalid source range")
		}
	}
	b.Events.Add(&controlapi.StatusResponse{Warnings: []*controlapi.VertexWarning{{
		Vertex: req.Digest, Level: req.Level, Short: req.Short, Detail: req.Detail, Url: req.Url, Info: req.Info, Ranges: req.Ranges,
	}}})
	return &gatewaypb.WarnResponse{}, nil
}

// Return takes what the frontend made of the build.
func (g *Gateway) Return(ctx context.Context, req *gatewaypb.ReturnRequest) (*gatewaypb.ReturnResponse, error) {
	b, err := g.build(ctx)
	if err != nil {
		return nil, err
	}
	if err := b.Hold(req.Size()); err != nil {
		return nil, err
	}
	to := b.Returned
	if g.only != nil {
		to = g.only.returned
	}
	select {
	case to <- req:
		return &gatewaypb.ReturnResponse{}, nil
	default:
		return nil, status.Error(codes.AlreadyExists, "the build has returned")
	}
}

// ResolveImageConfig returns the configuration of an image.
func (g *Gateway) ResolveImageConfig(ctx context.Context, req *gatewaypb.ResolveImageConfigRequest) (*gatewaypb.ResolveImageConfigResponse, error) {
	source := &pb.SourceOp{Identifier: "docker-image://" + req.Ref}
	if sourceresolver.ResolverType(req.ResolverType) == sourceresolver.ResolverTypeOCILayout {
		source.Identifier = "oci-layout://" + req.Ref
		source.Attrs = map[string]string{pb.AttrOCILayoutSessionID: req.SessionID, pb.AttrOCILayoutStoreID: req.StoreID}
	}
	image, err := g.image(ctx, source, req.Platform, req.SourcePolicies)
	if err != nil {
		return nil, err
	}
	if image == nil {
		return nil, status.Error(codes.InvalidArgument, imageutil.ResolveToNonImageError{Ref: req.Ref, Updated: source.Identifier}.Error())
	}
	_, ref, _ := strings.Cut(source.Identifier, "://")
	return &gatewaypb.ResolveImageConfigResponse{Ref: ref, Digest: image.Digest, Config: image.Text}, nil
}

// ResolveSourceMeta returns what is known of a source before it is read: the configuration of an image.
func (g *Gateway) ResolveSourceMeta(ctx context.Context, req *gatewaypb.ResolveSourceMetaRequest) (*gatewaypb.ResolveSourceMetaResponse, error) {
	if req.Source == nil {
		return nil, status.Error(codes.InvalidArgument, "source is required")
	}
	source := *req.Source
	image, err := g.image(ctx, &source, req.Platform, req.SourcePolicies)
	if err != nil {
		return nil, err
	}
	out := &gatewaypb.ResolveSourceMetaResponse{Source: &source}
	if image != nil {
		out.Image = &gatewaypb.ResolveSourceImageResponse{Digest: image.Digest, Config: image.Text}
	}
	return out, nil
}

// image returns what is known of the image of a source, of which nothing but the configuration is read.
func (g *Gateway) image(ctx context.Context, source *pb.SourceOp, platform *pb.Platform, policies []*spb.Policy) (*replacements.Config, error) {
	b, err := g.build(ctx)
	if err != nil {
		return nil, err
	}
	for _, policy := range policies {
		if err := requests.CheckPolicy(policy); err != nil {
			return nil, err
		}
	}
	return g.Solver.ImageConfig(ctx, b, source, platform, policies)
}

var errContainers = status.Error(codes.Unimplemented, "llbmd has no containers for frontends")

// NewContainer is refused: llbm starts no processes.
func (g *Gateway) NewContainer(context.Context, *gatewaypb.NewContainerRequest) (*gatewaypb.NewContainerResponse, error) {
	return nil, errContainers
}

// ReleaseContainer is refused: there is no container.
func (g *Gateway) ReleaseContainer(context.Context, *gatewaypb.ReleaseContainerRequest) (*gatewaypb.ReleaseContainerResponse, error) {
	return nil, errContainers
}

// ExecProcess is refused: llbm starts no processes.
func (g *Gateway) ExecProcess(gatewaypb.LLBBridge_ExecProcessServer) error { return errContainers }

// epoch is the time of everything in a tree.
var epoch = time.Unix(0, 0)
