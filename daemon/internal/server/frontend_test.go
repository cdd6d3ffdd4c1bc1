package server

import (
	"context"
	"fmt"
	"net"
	"os"
	"strings"
	"testing"
	"time"

	"github.com/moby/buildkit/client"
	"github.com/moby/buildkit/client/llb"
	"github.com/moby/buildkit/client/llb/sourceresolver"
	gwclient "github.com/moby/buildkit/frontend/gateway/client"
	"github.com/moby/buildkit/frontend/gateway/grpcclient"
	"github.com/moby/buildkit/util/appcontext"
	"llbm/daemon/internal/frontends"
	"llbm/daemon/internal/sources"
)

// beFrontend is a frontend that does what its option `do` says.
func beFrontend() {
	if err := grpcclient.RunFromEnvironment(appcontext.Context(), ask); err != nil {
		fmt.Fprintln(os.Stderr, err)
		os.Exit(1)
	}
}

func ask(ctx context.Context, c gwclient.Client) (*gwclient.Result, error) {
	text := ""
	switch do := c.BuildOpts().Opts["do"]; do {
	case "exit":
		fmt.Fprintln(os.Stderr, "so it ends")
		os.Exit(7)
	case "hang":
		time.Sleep(time.Hour)
	case "fail":
		return nil, fmt.Errorf("it does not like this")
	case "grow":
		var all [][]byte
		for len(all) < 1<<10 { // 1 GiB: twice the bound
			block := make([]byte, 1<<20)
			for i := range block {
				block[i] = 1
			}
			all = append(all, block)
		}
	case "write":
		file, err := os.CreateTemp("/tmp", frontendName)
		if err == nil {
			_, err = file.WriteString("x")
			_ = os.Remove(file.Name())
		}
		if err != nil {
			text = "can't write"
		}
	case "rights":
		interfaces, _ := net.Interfaces()
		state, _ := os.ReadFile("/proc/self/status")
		text = fmt.Sprintf("%d %d %v", os.Getuid(), len(interfaces), strings.Contains(string(state), "NoNewPrivs:\t1"))
	case "run":
		def, err := building().Marshal(ctx)
		if err != nil {
			return nil, err
		}
		return c.Solve(ctx, gwclient.SolveRequest{Definition: def.ToPB()})
	case "image":
		_, _, _, err := c.ResolveImageConfig(ctx, "alpine", sourceresolver.Opt{})
		return nil, fmt.Errorf("alpine: %w", err)
	case "again":
		return c.Solve(ctx, gwclient.SolveRequest{Frontend: "test.v0", FrontendOpt: map[string]string{"do": "again"}})
	default:
		text = do
	}
	def, err := llb.Scratch().File(llb.Mkfile("/said", 0o600, []byte(text))).Marshal(ctx)
	if err != nil {
		return nil, err
	}
	return c.Solve(ctx, gwclient.SolveRequest{Definition: def.ToPB()})
}

// said builds with the frontend, and returns what it says in the result.
func said(t *testing.T, d *daemon, ctx context.Context, do string) (string, error) {
	t.Helper()
	var archive buffer
	o := client.SolveOpt{Frontend: "test.v0", FrontendAttrs: map[string]string{"do": do}, Exports: []client.ExportEntry{toTar("tar", &archive, nil)}}
	if _, err := d.Solve(ctx, nil, o, nil); err != nil {
		return "", err
	}
	return strings.TrimSpace(listed(t, archive.Bytes())), nil
}

func withFrontend(t *testing.T, change func(*Options)) *daemon {
	t.Helper()
	program := self(t, frontendName)
	return started(t, func(o *Options) {
		if change != nil {
			change(o)
		}
		o.Frontends = &frontends.Frontends{}
		o.Limits.Memory = 512 << 20
		if err := o.Frontends.Set("test.v0=" + program); err != nil {
			t.Fatal(err)
		}
	})
}

func TestAFrontendIsAChild(t *testing.T) {
	d := withFrontend(t, nil)
	if got, err := said(t, d, context.Background(), "hello"); err != nil || got != `0600 0:0 said "hello"` {
		t.Error(got, err)
	}
	for do, want := range map[string]string{
		"exit": "so it ends", "fail": "it does not like this", "grow": "frontend test.v0", "again": "8 frontends of the build run",
	} {
		if _, err := said(t, d, context.Background(), do); err == nil || !strings.Contains(err.Error(), want) {
			t.Errorf("%s: %v", do, err)
		}
	}
	_, err := d.Solve(context.Background(), nil, client.SolveOpt{Frontend: "other.v0"}, nil)
	if err == nil || !strings.Contains(err.Error(), `no frontend "other.v0"`) {
		t.Error(err)
	}
	eventually(t, "no child runs", func() bool { return len(d.children(t)) == 0 })
}

func TestARefusalThatCameThroughAFrontendHasItsCodeOnce(t *testing.T) {
	d := withFrontend(t, nil)
	_, err := said(t, d, context.Background(), "image")
	want := "failed to solve: Unimplemented: alpine: llbm: fault 88 Source (docker-image://alpine)\n" + sources.Instead("docker-image://alpine")
	if err == nil || err.Error() != want {
		t.Errorf("%v, not %s", err, want)
	}
}

func TestAFrontendHasNoRights(t *testing.T) {
	d := withFrontend(t, nil)
	got, err := said(t, d, context.Background(), "rights")
	if err != nil {
		t.Fatal(err)
	}
	var uid, interfaces int
	var noNew bool
	if _, err := fmt.Sscanf(got, `0600 0:0 said "%d %d %t"`, &uid, &interfaces, &noNew); err != nil || uid != 65534 && os.Getuid() == 0 || !noNew {
		t.Error(got, err)
	}
	if interfaces > 1 {
		t.Logf("the kernel does not let the frontend's network be taken away here")
	}
	if got, err := said(t, d, context.Background(), "write"); err != nil || got != `0600 0:0 said "can't write"` {
		t.Error(got, err)
	}
}

func TestAFrontendEndsWithItsBuild(t *testing.T) {
	d := withFrontend(t, nil)
	ctx, cancel := context.WithCancel(context.Background())
	done := make(chan error, 1)
	go func() {
		_, err := said(t, d, ctx, "hang")
		done <- err
	}()
	eventually(t, "the frontend runs", func() bool { return len(d.children(t)) == 1 })
	cancel()
	if err := <-done; err == nil {
		t.Error("it was built")
	}
	eventually(t, "no child runs", func() bool { return len(d.children(t)) == 0 })
}
