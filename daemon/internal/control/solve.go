package control

import (
	"context"
	"strconv"
	"unicode/utf8"

	controlapi "github.com/moby/buildkit/api/services/control"
	spb "github.com/moby/buildkit/sourcepolicy/pb"
	"google.golang.org/grpc/codes"
	"google.golang.org/grpc/status"
	"llbm/daemon/internal/builds"
	"llbm/daemon/internal/exports"
	"llbm/daemon/internal/gateway"
	"llbm/daemon/internal/replacements"
	"llbm/daemon/internal/requests"
)

const keyEpoch = "source-date-epoch"

// mostOfRef bounds the names that clients give their builds.
const mostOfRef = 256

// Solve does one build. The build is there from the first moment, so that a refusal reaches all who wait for it.
func (c *Control) Solve(ctx context.Context, req *controlapi.SolveRequest) (*controlapi.SolveResponse, error) {
	user, err := userOf(ctx)
	if err != nil {
		return nil, err
	}
	if len(req.Ref) > mostOfRef || !utf8.ValidString(req.Ref) {
		return nil, status.Errorf(codes.InvalidArgument, "%.80q is no ref of a build: one is of UTF-8, and has at most %d bytes", req.Ref, mostOfRef)
	}
	ctx, cancel := context.WithCancel(ctx)
	b, err := c.Builds.Start(ctx, user, req.Ref, req.Session)
	if err != nil {
		cancel()
		return nil, err
	}
	defer c.Builds.End(b)
	defer cancel()
	if err := b.Hold(req.Size()); err != nil {
		return nil, err
	}
	modern(req)
	solve := c.recorded
	if req.Internal {
		solve = c.solve
	}
	response, err := solve(ctx, b, req)
	if err != nil && b.Session != "" {
		c.Builds.Shared.Sessions.Settle(ctx, user, b.Session)
	}
	return response, err
}

// recorded solves a request that is in the history.
func (c *Control) recorded(ctx context.Context, b *builds.Build, req *controlapi.SolveRequest) (*controlapi.SolveResponse, error) {
	record := c.History.Start(b.User, req)
	response, err := c.solve(ctx, b, req)
	c.History.End(record, response.GetExporterResponse(), b.Steps(), err)
	return response, err
}

// modern puts the exporter of an older client where newer ones have it, and the time of a build argument where exporters look.
func modern(req *controlapi.SolveRequest) {
	if len(req.Exporters) == 0 && req.ExporterDeprecated != "" {
		req.Exporters = []*controlapi.Exporter{{Type: req.ExporterDeprecated, Attrs: req.ExporterAttrsDeprecated}}
	}
	epoch, ok := req.FrontendAttrs["build-arg:SOURCE_DATE_EPOCH"]
	for _, e := range req.Exporters {
		if _, has := e.Attrs[keyEpoch]; ok && !has {
			if e.Attrs == nil {
				e.Attrs = map[string]string{}
			}
			e.Attrs[keyEpoch] = epoch
		}
	}
}

// refused refuses what llbm has not.
func refused(req *controlapi.SolveRequest) error {
	if len(req.Entitlements) > 0 {
		return status.Errorf(codes.PermissionDenied, "entitlement %s is not allowed", req.Entitlements[0])
	}
	if err := requests.CheckPolicy(req.SourcePolicy); err != nil {
		return err
	}
	return requests.CheckFields("SolveRequest", req.XXX_unrecognized)
}

// warnOfCaches warns of caches that the build was asked to use, and has no use for.
func warnOfCaches(b *builds.Build, cache controlapi.CacheOptions) {
	if cache.ExportRefDeprecated != "" || len(cache.Exports) > 0 {
		b.Warn(builds.Caches, "no cache is exported: llbmd keeps nothing but sources")
	}
	if len(cache.ImportRefsDeprecated) > 0 || len(cache.Imports) > 0 {
		b.Warn(builds.Caches, builds.NoImports)
	}
}

// The options by which a client asks for a build that fails where BuildKit would make something else, and for an image with BuildKit's
// layers.
const (
	keyStrict = "llbm:strict"
	keyLayers = "llbm:layers"
)

// isSet is whether an option is true.
func isSet(options map[string]string, key string) (bool, error) {
	value, ok := options[key]
	if !ok {
		return false, nil
	}
	found, err := strconv.ParseBool(value)
	if err != nil {
		return false, status.Errorf(codes.InvalidArgument, "%s=%s: it is true or false", key, value)
	}
	return found, nil
}

func (c *Control) solve(ctx context.Context, b *builds.Build, req *controlapi.SolveRequest) (*controlapi.SolveResponse, error) {
	if err := refused(req); err != nil {
		return nil, err
	}
	warnOfCaches(b, req.Cache)
	exporters, err := exports.Asked(req, c.Builds.Shared.Keeper.Store(), c.Builds.Shared.Platform)
	if err != nil {
		return nil, err
	}
	if err := give(ctx, b, req); err != nil {
		return nil, err
	}
	returned, err := c.result(ctx, b, req)
	if err != nil {
		return nil, err
	}
	results, err := returned.Results(ctx)
	if err != nil {
		return nil, err
	}
	out := results.Answer()
	for _, e := range exporters {
		told, err := e.Show(ctx, b, results, c.Idle)
		if err != nil {
			return nil, err
		}
		for k, v := range told {
			out[k] = v
		}
	}
	return &controlapi.SolveResponse{ExporterResponse: out}, nil
}

// give gives a build what it was asked for with.
func give(ctx context.Context, b *builds.Build, req *controlapi.SolveRequest) error {
	var policies []*spb.Policy
	if req.SourcePolicy != nil {
		policies = append(policies, req.SourcePolicy)
	}
	var err error
	if b.Strict, err = isSet(req.FrontendAttrs, keyStrict); err != nil {
		return err
	}
	if b.Layers, err = isSet(req.FrontendAttrs, keyLayers); err != nil {
		return err
	}
	if err := replacements.Ask(ctx, b, req.FrontendAttrs); err != nil {
		return err
	}
	b.Give(req.FrontendInputs, policies)
	return nil
}

// result asks a frontend, or takes the definition, or waits for the frontend in the client.
func (c *Control) result(ctx context.Context, b *builds.Build, req *controlapi.SolveRequest) (*gateway.Returned, error) {
	switch {
	case req.Frontend != "":
		return c.Frontends.Run(ctx, b, gateway.Frontend{Name: req.Frontend, Options: req.FrontendAttrs, Inputs: req.FrontendInputs})
	case req.Definition != nil:
		return &gateway.Returned{Single: c.Solver.Lazily(b, "", req.Definition, nil)}, nil
	default:
		return gateway.Await(ctx, b, b.Returned)
	}
}
