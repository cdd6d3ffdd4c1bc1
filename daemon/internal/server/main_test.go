package server

import (
	"context"
	"fmt"
	"net"
	"os"
	"path/filepath"
	"testing"

	controlapi "github.com/moby/buildkit/api/services/control"
	"github.com/moby/buildkit/client/llb"
	"github.com/moby/buildkit/identity"
	"github.com/moby/buildkit/session"
	"github.com/moby/buildkit/session/grpchijack"
	"github.com/moby/buildkit/solver/pb"
	"llbm/daemon/internal/comparison"
	"llbm/daemon/internal/frontends"
)

type (
	pbRange           = pb.Range
	pbPosition        = pb.Position
	historyRequest    = controlapi.BuildHistoryRequest
	historyUpdate     = controlapi.UpdateBuildHistoryRequest
	sessionAttachable = session.Attachable
)

// The test's program is also other programs, by the name under which it is started.
const (
	dialName     = "dials"
	daemonName   = "serves"
	frontendName = "frontend"
	rulesName    = "llbm-rules"
	dyingName    = "dies"
)

func TestMain(m *testing.M) {
	switch filepath.Base(os.Args[0]) {
	case dialName:
		dial(os.Args[1])
	case daemonName:
		serve(os.Args[1], os.Args[2], os.Args[3])
	case frontendName:
		beFrontend()
	case dyingName:
		panic("these rules die")
	case rulesName:
		if err := comparison.Serve(context.Background(), comparison.NewTalk(os.Stdin, os.Stdout)); err != nil {
			fmt.Fprintln(os.Stderr, err)
			os.Exit(1)
		}
	default:
		os.Exit(m.Run())
	}
}

// serve is a daemon with its socket and its store in a folder.
func serve(folder, program, rules string) {
	o := Options{Program: program, Rules: rules, Workers: 1, AtOnce: 1, Store: folder, StoreBytes: 1 << 20, Idle: patience, Frontends: &frontends.Frontends{}}
	d, err := New(context.Background(), o)
	if err == nil {
		err = d.Serve(context.Background(), filepath.Join(folder, "s"))
	}
	fmt.Fprintln(os.Stderr, err)
	os.Exit(1)
}

// raw calls Solve itself, with a session of its own.
func (d *daemon) raw(ctx context.Context, t *testing.T, def *llb.Definition, exporter string, offered session.Attachable) (*controlapi.SolveResponse, error) {
	t.Helper()
	s, err := session.NewSession(ctx, "raw", "")
	if err != nil {
		t.Fatal(err)
	}
	s.Allow(offered)
	go func() {
		_ = s.Run(ctx, func(ctx context.Context, proto string, meta map[string][]string) (net.Conn, error) {
			return grpchijack.Dialer(d.ControlClient())(ctx, proto, meta)
		})
	}()
	defer s.Close()
	return d.ControlClient().Solve(ctx, &controlapi.SolveRequest{
		Ref: identity.NewID(), Session: s.ID(), Definition: def.ToPB(), Exporters: []*controlapi.Exporter{{Type: exporter}},
	})
}
