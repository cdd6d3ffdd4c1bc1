// Package control is the service that clients call: builds, their progress, sessions, workers, disk usage and history.
package control

import (
	"context"
	"time"

	controlapi "github.com/moby/buildkit/api/services/control"
	apitypes "github.com/moby/buildkit/api/types"
	"github.com/moby/buildkit/session/grpchijack"
	"github.com/moby/buildkit/solver/pb"
	"google.golang.org/grpc/codes"
	"google.golang.org/grpc/metadata"
	"google.golang.org/grpc/status"
	"llbm/daemon/internal/builds"
	"llbm/daemon/internal/gateway"
	"llbm/daemon/internal/history"
	"llbm/daemon/internal/peers"
	"llbm/daemon/internal/solver"
	"llbm/daemon/internal/sources"
)

// Version is what clients are told of the daemon.
var Version = apitypes.BuildkitVersion{Package: "llbmd", Version: "v0.12.0+llbm"}

// Worker is the one worker: llbm.
func Worker(version string) *apitypes.WorkerRecord {
	return &apitypes.WorkerRecord{
		ID: "llbm", Labels: map[string]string{"org.mobyproject.buildkit.worker.executor": "llbm", "llbm.version": version},
		Platforms: []pb.Platform{{OS: "linux", Architecture: "amd64"}}, BuildkitVersion: &Version,
	}
}

// mostHistory bounds the records of builds that have ended.
const mostHistory = 64

// A Control serves clients.
type Control struct {
	controlapi.UnimplementedControlServer
	Builds    *builds.Builds
	Solver    *solver.Solver
	Frontends gateway.Frontends
	History   *history.History
	Workers   []*apitypes.WorkerRecord
	Idle      time.Duration // how long a client may take nothing of a result
}

// New returns a service over builds and their solver, with an empty history. A client may take nothing of a result for an idle time.
func New(all *builds.Builds, solver *solver.Solver, frontends gateway.Frontends, workers []*apitypes.WorkerRecord, idle time.Duration) *Control {
	return &Control{Builds: all, Solver: solver, Frontends: frontends, History: history.New(mostHistory), Workers: workers, Idle: idle}
}

func userOf(ctx context.Context) (uint32, error) {
	user, err := peers.User(ctx)
	if err != nil {
		return 0, status.Error(codes.Unauthenticated, err.Error())
	}
	return user, nil
}

// ListWorkers lists the one worker.
func (c *Control) ListWorkers(_ context.Context, req *controlapi.ListWorkersRequest) (*controlapi.ListWorkersResponse, error) {
	if err := noFilters(req.Filter); err != nil {
		return nil, err
	}
	return &controlapi.ListWorkersResponse{Record: c.Workers}, nil
}

// Info says which daemon it is.
func (c *Control) Info(context.Context, *controlapi.InfoRequest) (*controlapi.InfoResponse, error) {
	return &controlapi.InfoResponse{BuildkitVersion: &Version}, nil
}

func noFilters(filters []string) error {
	for _, filter := range filters {
		if filter != "" {
			return status.Errorf(codes.Unimplemented, "llbmd has no filters: %q", filter)
		}
	}
	return nil
}

func record(u sources.Usage) *controlapi.UsageRecord {
	used := u.Used
	return &controlapi.UsageRecord{
		ID: u.ID, Size_: u.Bytes, CreatedAt: u.Created, LastUsedAt: &used, UsageCount: int64(u.Times), Description: u.Words,
		RecordType: "source.local", Mutable: true,
	}
}

// DiskUsage lists the sources that are kept for the caller.
func (c *Control) DiskUsage(ctx context.Context, req *controlapi.DiskUsageRequest) (*controlapi.DiskUsageResponse, error) {
	user, err := userOf(ctx)
	if err != nil {
		return nil, err
	}
	if err := noFilters(req.Filter); err != nil {
		return nil, err
	}
	out := &controlapi.DiskUsageResponse{}
	for _, one := range c.Builds.Shared.Keeper.Usage(user) {
		out.Record = append(out.Record, record(one))
	}
	return out, nil
}

// Prune gives up sources that are kept for the caller.
func (c *Control) Prune(req *controlapi.PruneRequest, stream controlapi.Control_PruneServer) error {
	user, err := userOf(stream.Context())
	if err != nil {
		return err
	}
	if err := noFilters(req.Filter); err != nil {
		return err
	}
	for _, one := range c.Builds.Shared.Keeper.Prune(user, time.Now().Add(-time.Duration(req.KeepDuration)), req.KeepBytes) {
		if err := stream.Send(record(one)); err != nil {
			return err
		}
	}
	return nil
}

// Session keeps a client's session.
func (c *Control) Session(stream controlapi.Control_SessionServer) error {
	user, err := userOf(stream.Context())
	if err != nil {
		return err
	}
	conn, closed, headers := grpchijack.Hijack(stream)
	defer conn.Close()
	ctx, cancel := context.WithCancel(stream.Context())
	defer cancel()
	go func() {
		select {
		case <-closed:
			cancel()
		case <-ctx.Done():
		}
	}()
	return c.Builds.Shared.Sessions.Serve(ctx, user, conn, headers)
}

// Status follows a build's progress.
func (c *Control) Status(req *controlapi.StatusRequest, stream controlapi.Control_StatusServer) error {
	user, err := userOf(stream.Context())
	if err != nil {
		return err
	}
	if err := sendTime(stream.SendHeader); err != nil {
		return err
	}
	b, err := c.Builds.Get(stream.Context(), user, req.Ref)
	if err != nil {
		return err
	}
	return b.Events.Follow(stream.Context(), stream.Send)
}

// timestampKey is the header by which clients see how far their clocks are off.
const timestampKey = "buildkit-current-timestamp"

func sendTime(send func(metadata.MD) error) error {
	return send(metadata.Pairs(timestampKey, time.Now().Format(time.RFC3339Nano)))
}

// ListenBuildHistory follows the caller's history.
func (c *Control) ListenBuildHistory(req *controlapi.BuildHistoryRequest, stream controlapi.Control_ListenBuildHistoryServer) error {
	user, err := userOf(stream.Context())
	if err != nil {
		return err
	}
	if err := sendTime(stream.SendHeader); err != nil {
		return err
	}
	return c.History.Listen(stream.Context(), user, req, stream.Send)
}

// UpdateBuildHistory pins or deletes a record of the caller's history.
func (c *Control) UpdateBuildHistory(ctx context.Context, req *controlapi.UpdateBuildHistoryRequest) (*controlapi.UpdateBuildHistoryResponse, error) {
	user, err := userOf(ctx)
	if err != nil {
		return nil, err
	}
	return &controlapi.UpdateBuildHistoryResponse{}, c.History.Update(user, req)
}
