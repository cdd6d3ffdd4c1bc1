// Package server puts the daemon together.
package server

import (
	"context"
	"fmt"
	"log"
	"os"
	"path/filepath"
	"time"

	controlapi "github.com/moby/buildkit/api/services/control"
	apitypes "github.com/moby/buildkit/api/types"
	gatewaypb "github.com/moby/buildkit/frontend/gateway/pb"
	"google.golang.org/grpc"
	"google.golang.org/grpc/health"
	"google.golang.org/grpc/health/grpc_health_v1"
	"llbm/daemon/internal/builds"
	"llbm/daemon/internal/control"
	"llbm/daemon/internal/frontends"
	"llbm/daemon/internal/gateway"
	"llbm/daemon/internal/machine"
	"llbm/daemon/internal/serving"
	"llbm/daemon/internal/sessions"
	"llbm/daemon/internal/solver"
	"llbm/daemon/internal/sources"
)

// MostWorkers is how many workers a build can have.
const MostWorkers = 64

// Bounds that have no option.
const (
	mostBuilds   = 1024
	mostSessions = 1024
	// mostFrontends bounds the frontends that clients ask for and that run at once.
	mostFrontends = 32
)

// Options are those of the command line.
type Options struct {
	solver.Options
	Program    string
	Rules      string // the program llbm-rules; nothing for the one beside this program
	Workers    int    // of each build
	AtOnce     int    // processes of the program
	Store      string
	StoreBytes int64
	Idle       time.Duration
	LeaveOut   bool
	Limits     machine.Limits
	Frontends  *frontends.Frontends
}

// A Daemon is what serves clients, with what all their builds share.
type Daemon struct {
	grpc   *grpc.Server
	builds *builds.Builds
}

// New makes a daemon that does not listen yet.
func New(ctx context.Context, o Options) (*Daemon, error) {
	if o.Workers < 1 || o.Workers > MostWorkers {
		return nil, fmt.Errorf("%d workers: a build has 1 to %d", o.Workers, MostWorkers)
	}
	if o.AtOnce < 1 {
		return nil, fmt.Errorf("%d builds at once", o.AtOnce)
	}
	program, err := machine.Find(ctx, o.Program, o.Limits)
	if err != nil {
		return nil, err
	}
	program.SetMost(o.AtOnce)
	if err := o.StandIns.Check(ctx, program); err != nil {
		return nil, fmt.Errorf("-rules: %w", err)
	}
	all := builds.New(mostBuilds)
	if all.Shared, err = shared(o, program); err != nil {
		return nil, err
	}
	workers := []*apitypes.WorkerRecord{control.Worker(program.Version)}
	all.Shared.Platform = workers[0].Platforms[0]
	solver := solver.New(o.Options, o.Workers, o.AtOnce)
	bridge := &gateway.Gateway{Builds: all, Solver: solver, Frontends: o.Frontends, Workers: workers}
	o.Frontends.Gateway, o.Frontends.Limits, o.Frontends.AtOnce, o.Frontends.Server = bridge, o.Limits, mostFrontends, serving.ForChild
	g := serving.ForClients()
	controlapi.RegisterControlServer(g, control.New(all, solver, o.Frontends, workers, o.Idle))
	gatewaypb.RegisterLLBBridgeServer(g, bridge)
	grpc_health_v1.RegisterHealthServer(g, health.NewServer())
	return &Daemon{grpc: g, builds: all}, nil
}

// shared returns what all builds share.
func shared(o Options, program *machine.Program) (*builds.Shared, error) {
	keeper, err := sources.OpenKeeper(o.Store, o.StoreBytes, o.LeaveOut, o.Idle)
	if err != nil {
		return nil, err
	}
	open, err := sessions.New(mostSessions)
	if err != nil {
		return nil, err
	}
	rules, err := findRules(o.Rules, o.Limits)
	return &builds.Shared{Program: program, Rules: rules, Sessions: open, Keeper: keeper}, err
}

// findRules returns the program llbm-rules, which compares: the one that is named, or else the one beside this program. If that is
// missing, builds go on without it.
func findRules(path string, limits machine.Limits) (*machine.Ahead, error) {
	named := path != ""
	if !named {
		own, err := os.Executable()
		if err != nil {
			return nil, err
		}
		path = filepath.Join(filepath.Dir(own), "llbm-rules")
	}
	program, err := machine.FindHelper(path, limits)
	switch {
	case err == nil:
		return program.Ahead("compare"), nil
	case named:
		return nil, err
	}
	log.Printf("llbmd: %s is missing, so no build is compared with what BuildKit would make: dev/dev daemon builds it", path)
	return nil, nil
}

// Serve serves a socket until the context ends. Builds that run then are ended, and the socket is removed.
func (d *Daemon) Serve(ctx context.Context, address string) error {
	if rules := d.builds.Shared.Rules; rules != nil {
		go rules.Ready()
		defer rules.Close()
	}
	return serving.Serve(ctx, d.grpc, address)
}
