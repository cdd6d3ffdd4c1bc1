package gateway

import (
	"context"

	gatewaypb "github.com/moby/buildkit/frontend/gateway/pb"
	"github.com/moby/buildkit/util/grpcerrors"
	spb "google.golang.org/genproto/googleapis/rpc/status"
	"google.golang.org/grpc/codes"
	"google.golang.org/grpc/status"
	"google.golang.org/protobuf/types/known/anypb"
	"llbm/daemon/internal/builds"
	"llbm/daemon/internal/exports"
	"llbm/daemon/internal/results"
)

// A Returned is what a frontend makes of a build: one result, or one for each ID, and metadata.
type Returned struct {
	Single   *results.Lazy
	ByID     map[string]*results.Lazy
	Metadata map[string][]byte
}

// Await waits for what a frontend returns.
func Await(ctx context.Context, b *builds.Build, from <-chan *gatewaypb.ReturnRequest) (*Returned, error) {
	select {
	case req := <-from:
		return ReturnedBy(b, req)
	case <-ctx.Done():
		return nil, status.FromContextError(ctx.Err()).Err()
	}
}

// ReturnedBy reads what a frontend returns.
func ReturnedBy(b *builds.Build, req *gatewaypb.ReturnRequest) (*Returned, error) {
	if req.Error != nil {
		return nil, errorOf(req)
	}
	return read(b, req.Result)
}

func errorOf(req *gatewaypb.ReturnRequest) error {
	st := &spb.Status{Code: req.Error.Code, Message: req.Error.Message}
	for _, detail := range req.Error.Details {
		st.Details = append(st.Details, &anypb.Any{TypeUrl: detail.TypeUrl, Value: detail.Value})
	}
	return grpcerrors.FromGRPC(status.FromProto(st).Err())
}

func read(b *builds.Build, given *gatewaypb.Result) (*Returned, error) {
	if len(given.GetAttestations()) > 0 {
		return nil, status.Error(codes.Unimplemented, "llbmd has no attestations")
	}
	r, ids := &Returned{Metadata: given.GetMetadata()}, map[string]string{}
	several := true
	switch x := given.GetResult().(type) {
	case *gatewaypb.Result_RefsDeprecated:
		ids = x.RefsDeprecated.GetRefs()
	case *gatewaypb.Result_Refs:
		for key, ref := range x.Refs.GetRefs() {
			ids[key] = ref.GetId()
		}
	default:
		several = false
	}
	var err error
	if !several {
		id := given.GetRefDeprecated()
		if ref := given.GetRef(); ref != nil {
			id = ref.Id
		}
		r.Single, err = result(b, id)
		return r, err
	}
	r.ByID = map[string]*results.Lazy{}
	for key, id := range ids {
		if r.ByID[key], err = result(b, id); err != nil {
			return nil, err
		}
	}
	return r, nil
}

// Results solves all results.
func (r *Returned) Results(ctx context.Context) (*exports.Results, error) {
	out := &exports.Results{Metadata: r.Metadata}
	var err error
	if r.ByID == nil {
		out.Single, err = r.Single.Result(ctx)
		return out, err
	}
	out.ByID = map[string]*results.Result{}
	for key, lazy := range r.ByID {
		if out.ByID[key], err = lazy.Result(ctx); err != nil {
			return nil, err
		}
	}
	return out, nil
}

// response tells a frontend of results, in the form that it asked for.
func (r *Returned) response(req *gatewaypb.SolveRequest) (*gatewaypb.SolveResponse, error) {
	res := &gatewaypb.Result{Metadata: r.Metadata}
	if r.ByID != nil {
		if !req.AllowResultReturn {
			return nil, status.Error(codes.Unimplemented, "solve did not return default result")
		}
		refs, ids := map[string]*gatewaypb.Ref{}, map[string]string{}
		for key, lazy := range r.ByID {
			refs[key], ids[key] = &gatewaypb.Ref{Id: lazy.ID, Def: lazy.Def}, lazy.ID
		}
		if req.AllowResultArrayRef {
			res.Result = &gatewaypb.Result_Refs{Refs: &gatewaypb.RefMap{Refs: refs}}
		} else {
			res.Result = &gatewaypb.Result_RefsDeprecated{RefsDeprecated: &gatewaypb.RefMapDeprecated{Refs: ids}}
		}
		return &gatewaypb.SolveResponse{Result: res}, nil
	}
	if !req.AllowResultReturn {
		return &gatewaypb.SolveResponse{Ref: r.Single.ID}, nil
	}
	if req.AllowResultArrayRef {
		res.Result = &gatewaypb.Result_Ref{Ref: &gatewaypb.Ref{Id: r.Single.ID, Def: r.Single.Def}}
	} else {
		res.Result = &gatewaypb.Result_RefDeprecated{RefDeprecated: r.Single.ID}
	}
	return &gatewaypb.SolveResponse{Result: res}, nil
}
