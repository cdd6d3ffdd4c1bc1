package server

import (
	"context"
	"fmt"
	"io"
	"io/fs"
	"os"
	"os/exec"
	"path/filepath"
	"strings"
	"syscall"
	"testing"
	"time"

	"github.com/moby/buildkit/client"
	"github.com/moby/buildkit/client/llb"
	gwclient "github.com/moby/buildkit/frontend/gateway/client"
	"github.com/moby/buildkit/session/filesync"
	"github.com/tonistiigi/fsutil"
	fstypes "github.com/tonistiigi/fsutil/types"
	"google.golang.org/grpc"
	"google.golang.org/grpc/codes"
	"google.golang.org/grpc/status"
	"llbm/daemon/internal/messages"
)

// phases are those of a build in which its client may vanish. Each says when it has come.
func phases(t *testing.T) map[string]func(ctx context.Context, d *daemon, c *client.Client, reached func()) {
	dirs := map[string]string{"context": directory(t, map[string]string{"a": "1"})}
	return map[string]func(ctx context.Context, d *daemon, c *client.Client, reached func()){
		"while a source is sent": func(ctx context.Context, _ *daemon, c *client.Client, reached func()) {
			o := client.SolveOpt{LocalMounts: map[string]fsutil.FS{"context": stuck{ctx, reached}}}
			_, _ = c.Solve(ctx, marshal(t, llb.Local("context")), o, nil)
		},
		"while llbm runs": func(ctx context.Context, d *daemon, c *client.Client, reached func()) {
			go func() {
				eventually(t, "llbm runs", func() bool { return len(d.children(t)) > 0 })
				reached()
			}()
			_, _ = c.Solve(ctx, marshal(t, long(llb.Scratch())), client.SolveOpt{LocalDirs: dirs}, nil)
		},
		"while a result is received": func(ctx context.Context, _ *daemon, c *client.Client, reached func()) {
			receive := func(map[string]string) (io.WriteCloser, error) {
				reached()
				<-ctx.Done()
				return nil, ctx.Err()
			}
			o := client.SolveOpt{LocalDirs: dirs, Exports: []client.ExportEntry{{Type: "tar", Output: receive}}}
			_, _ = c.Solve(ctx, marshal(t, llb.Local("context")), o, nil)
		},
		"while its frontend thinks": func(ctx context.Context, _ *daemon, c *client.Client, reached func()) {
			think := func(ctx context.Context, c gwclient.Client) (*gwclient.Result, error) {
				r, err := c.Solve(ctx, gwclient.SolveRequest{Definition: marshal(t, llb.Local("context")).ToPB(), Evaluate: true})
				if err != nil {
					t.Error(err)
				}
				reached()
				<-ctx.Done()
				return r, ctx.Err()
			}
			_, _ = c.Build(ctx, client.SolveOpt{LocalDirs: dirs}, "", think, nil)
		},
	}
}

// A stuck source has one file, whose content never comes.
type stuck struct {
	ctx     context.Context
	reached func()
}

func (s stuck) Walk(_ context.Context, _ string, to fs.WalkDirFunc) error {
	return to("a", &fsutil.DirEntryInfo{Stat: &fstypes.Stat{Path: "a", Mode: 0o644, Size_: 10}}, nil)
}

func (s stuck) Open(string) (io.ReadCloser, error) {
	s.reached()
	<-s.ctx.Done()
	return nil, s.ctx.Err()
}

func TestNothingIsLeftOfAClientThatVanishes(t *testing.T) {
	for how, vanish := range map[string]func(*client.Client, context.CancelFunc){
		"cancels":    func(_ *client.Client, cancel context.CancelFunc) { cancel() },
		"is cut off": func(c *client.Client, cancel context.CancelFunc) { _ = c.Close(); cancel() },
	} {
		for when, build := range phases(t) {
			t.Run(how+" "+when, func(t *testing.T) {
				d := started(t, nil)
				c := connected(t, d.address)
				ctx, cancel := context.WithCancel(context.Background())
				defer cancel()
				reached, ended := make(chan struct{}), make(chan struct{})
				go func() {
					defer close(ended)
					build(ctx, d, c, func() { close(reached) })
				}()
				<-reached
				vanish(c, cancel)
				<-ended
				eventually(t, "no build runs", func() bool { return d.builds.Running() == 0 })
				eventually(t, "no child runs", func() bool { return len(d.children(t)) == 0 })
				if err := d.Prune(context.Background(), nil); err != nil {
					t.Error(err)
				}
				eventually(t, "the store is empty", func() bool { return d.builds.Shared.Keeper.Store().Used() == 0 })
				if _, err := d.solved(t, llb.Scratch().File(llb.Mkfile("/a", 0o600, nil)), client.SolveOpt{}); err != nil {
					t.Error(err)
				}
			})
		}
	}
}

// An endless client sends what it is made to send, for ever.
type endless struct {
	filesync.UnimplementedFileSyncServer
	packet *fstypes.Packet
}

// Register offers the client's sources.
func (e *endless) Register(server *grpc.Server) { filesync.RegisterFileSyncServer(server, e) }

func (e *endless) DiffCopy(stream filesync.FileSync_DiffCopyServer) error {
	for n := 0; stream.Context().Err() == nil; n++ {
		p := *e.packet
		if p.Stat != nil {
			st := *p.Stat
			st.Path = fmt.Sprintf("%09d", n)
			p.Stat = &st
		}
		if err := stream.Send(&p); err != nil {
			return err
		}
	}
	return stream.Context().Err()
}

func (e *endless) TarStream(filesync.FileSync_TarStreamServer) error { return nil }

func TestAClientThatNeverEndsIsGivenUp(t *testing.T) {
	d := started(t, func(o *Options) {
		o.StoreBytes = 1 << 20
		o.Idle = second
	})
	for name, packet := range map[string]*fstypes.Packet{
		"entries": {Type: fstypes.PACKET_STAT, Stat: &fstypes.Stat{Mode: 0o644, Size_: 1000}},
		"data":    {Type: fstypes.PACKET_DATA, ID: 1, Data: []byte("x")},
		"ends":    {Type: fstypes.PACKET_FIN},
		"nothing": {Type: fstypes.PACKET_REQ},
	} {
		ctx, cancel := context.WithTimeout(context.Background(), patience)
		build := func(ctx context.Context, c gwclient.Client) (*gwclient.Result, error) {
			return c.Solve(ctx, gwclient.SolveRequest{Definition: marshal(t, llb.Local("context")).ToPB(), Evaluate: true})
		}
		_, err := d.Build(ctx, client.SolveOpt{SessionPreInitialized: false, Session: []sessionAttachable{&endless{packet: packet}}}, "", build, nil)
		if err == nil || ctx.Err() != nil {
			t.Errorf("%s: %v", name, err)
		}
		cancel()
		eventually(t, "the store is empty", func() bool { return d.builds.Shared.Keeper.Store().Used() == 0 })
	}
}

// A deaf receiver takes nothing of a result.
type deaf struct {
	filesync.UnimplementedFileSendServer
	chatter bool
}

// Register offers to take results.
func (r *deaf) Register(server *grpc.Server) { filesync.RegisterFileSendServer(server, r) }

func (r *deaf) DiffCopy(stream filesync.FileSend_DiffCopyServer) error {
	for r.chatter && stream.Context().Err() == nil {
		if err := stream.SendMsg(&fstypes.Packet{Type: fstypes.PACKET_STAT}); err != nil {
			return err
		}
	}
	<-stream.Context().Done()
	return stream.Context().Err()
}

func TestAReceiverThatNeverEndsIsGivenUp(t *testing.T) {
	d := started(t, func(o *Options) { o.Idle = second })
	def := marshal(t, llb.Scratch().File(llb.Mkfile("/a", 0o600, make([]byte, 1<<12))))
	for name, c := range map[string]struct {
		kind string
		deaf deaf
	}{"a directory": {"local", deaf{}}, "chatter": {"local", deaf{chatter: true}}, "an archive": {"tar", deaf{}}, "an image": {"oci", deaf{}}} {
		ctx, cancel := context.WithTimeout(context.Background(), patience)
		_, err := d.raw(ctx, t, def, c.kind, &c.deaf)
		if status.Code(err) != codes.DeadlineExceeded {
			t.Errorf("%s: %v", name, err)
		}
		cancel()
	}
	eventually(t, "no build runs", func() bool { return d.builds.Running() == 0 })
}

func TestABuildIsBounded(t *testing.T) {
	doubled := func(n int) llb.State {
		script := "write a x" + strings.Repeat(" && concat b a a && concat a b b", n)
		return llb.Scratch().Run(llb.Args([]string{"/bin/sh", "-c", script}), llb.Dir("/")).Root()
	}
	for name, c := range map[string]struct {
		change func(*Options)
		state  llb.State
		want   string
	}{
		"output": {func(o *Options) { o.Limits.Output = 100 << 10 }, doubled(8), "wrote more than"},
		"time":   {func(o *Options) { o.Limits.Time = 200 * time.Millisecond }, long(llb.Scratch()), "took longer than"},
		"memory": {func(o *Options) { o.Limits.Memory = 300 << 20 }, doubled(40), "memory"},
	} {
		d := started(t, c.change)
		_, err := d.Solve(context.Background(), marshal(t, c.state), client.SolveOpt{}, nil)
		if status.Code(unwrapped(err)) != codes.ResourceExhausted || !strings.Contains(fmt.Sprint(err), c.want) {
			t.Errorf("%s: %v", name, err)
		}
		eventually(t, name+": no child runs", func() bool { return len(d.children(t)) == 0 })
		d.stop()
	}
}

func TestAFullStoreRefusesABuildAndGoesOn(t *testing.T) {
	goesOn(t, started(t, func(o *Options) { o.StoreBytes = 1 << 20 }), "full")
}

func TestAFullDiskRefusesABuildAndGoesOn(t *testing.T) {
	folder := t.TempDir()
	if err := syscall.Mount("tmpfs", folder, "tmpfs", 0, "size=1m"); err != nil {
		t.Skipf("no small disk can be made here: %v", err)
	}
	t.Cleanup(func() { _ = syscall.Unmount(folder, syscall.MNT_DETACH) })
	goesOn(t, started(t, func(o *Options) { o.Store = folder }), "no space left")
}

// goesOn builds with sources on a daemon whose store has room for one MiB: what does not fit is refused, and what is kept of the builds
// before is given up.
func goesOn(t *testing.T, d *daemon, refusal string) {
	t.Helper()
	build := func(name string, size int) error {
		dirs := map[string]string{name: directory(t, map[string]string{"a": strings.Repeat("x", size)})}
		_, err := d.solved(t, llb.Scratch().File(llb.Copy(llb.Local(name), "a", "/a")), client.SolveOpt{LocalDirs: dirs, SharedKey: "key"})
		return err
	}
	for i, size := range []int{700 << 10, 2 << 20, 500 << 10, 900 << 10, 800 << 10} {
		err := build(fmt.Sprint("context", i), size)
		if size < 1<<20 && err != nil {
			t.Error(size, err)
		}
		if size > 1<<20 && (status.Code(unwrapped(err)) != codes.ResourceExhausted || !strings.Contains(err.Error(), refusal)) {
			t.Error(size, err)
		}
	}
}

// self copies this test's program to a folder that each user may read, under another name.
func self(t *testing.T, name string) string {
	t.Helper()
	folder := t.TempDir()
	path := filepath.Join(folder, name)
	data, err := os.ReadFile("/proc/self/exe")
	if err != nil {
		t.Fatal(err)
	}
	for dir := folder; dir != "/" && dir != os.TempDir(); dir = filepath.Dir(dir) {
		if err := os.Chmod(dir, 0o755); err != nil {
			t.Fatal(err)
		}
	}
	if err := os.WriteFile(path, data, 0o755); err != nil {
		t.Fatal(err)
	}
	return path
}

func TestAnotherUserIsRefused(t *testing.T) {
	if os.Getuid() != 0 {
		t.Skip("only root can become another user")
	}
	d := started(t, nil)
	path := strings.TrimPrefix(d.address, "unix://")
	info, err := os.Stat(path)
	if err != nil || info.Mode() != fs.ModeSocket|0o600 {
		t.Error(info.Mode(), err)
	}
	// With another mode the peer is still refused.
	for dir := path; dir != "/"; dir = filepath.Dir(dir) {
		if err := os.Chmod(dir, 0o777); err != nil {
			t.Fatal(err)
		}
	}
	refused := "PermissionDenied: user 1234 is not served by this llbmd: its own user, 0, and root are"
	for uid, want := range map[uint32]string{0: "served", 1234: refused} {
		cmd := exec.Command(self(t, dialName), path)
		cmd.SysProcAttr = &syscall.SysProcAttr{Credential: &syscall.Credential{Uid: uid, Gid: uid}}
		out, err := cmd.CombinedOutput()
		if err != nil || strings.TrimSpace(string(out)) != want {
			t.Errorf("user %d: %s %v", uid, out, err)
		}
	}
}

// dial prints whether the daemon at a path serves this process.
func dial(path string) {
	ctx, cancel := context.WithTimeout(context.Background(), patience)
	defer cancel()
	c, err := client.New(ctx, "unix://"+path)
	if err == nil {
		_, err = c.ListWorkers(ctx)
	}
	if err != nil {
		fmt.Printf("%s: %s\n", status.Code(unwrapped(err)), messages.Of(unwrapped(err)))
		return
	}
	fmt.Println("served")
}

func TestNothingIsLeftOfADaemonThatIsKilled(t *testing.T) {
	folder := short(t)
	cmd := exec.Command(self(t, daemonName), folder, llbm(t), as(t, rulesName))
	cmd.Stderr = os.Stderr
	if err := cmd.Start(); err != nil {
		t.Fatal(err)
	}
	defer func() { _ = cmd.Process.Kill() }()
	eventually(t, "the daemon listens", func() bool { _, err := os.Stat(filepath.Join(folder, "s")); return err == nil })
	c := connected(t, "unix://"+filepath.Join(folder, "s"))
	ended := make(chan error, 1)
	go func() {
		o := client.SolveOpt{LocalDirs: map[string]string{"context": directory(t, map[string]string{"a": "1"})}}
		_, err := c.Solve(context.Background(), marshal(t, long(llb.Local("context"))), o, nil)
		ended <- err
	}()
	running := func(word string) string {
		for _, pid := range childrenOf(t, cmd.Process.Pid) {
			if words, _ := os.ReadFile("/proc/" + pid + "/cmdline"); strings.Contains(string(words), "\x00"+word+"\x00") {
				return pid
			}
		}
		return ""
	}
	run, spare := "", ""
	eventually(t, "llbm runs, and llbm-rules waits", func() bool {
		run, spare = running("step"), running("compare")
		return run != "" && spare != ""
	})
	if run == "" || spare == "" {
		return
	}
	if err := cmd.Process.Kill(); err != nil {
		t.Fatal(err)
	}
	_ = cmd.Wait()
	if err := <-ended; err == nil {
		t.Error("the build succeeded")
	} else {
		t.Log(err)
	}
	for _, child := range []string{run, spare} {
		eventually(t, "it has ended", func() bool { // it may be a while until somebody waits for it
			words, err := os.ReadFile("/proc/" + child + "/cmdline")
			return err != nil || len(words) == 0
		})
	}
	left, err := os.ReadDir(folder)
	if err != nil || len(left) != 1 || left[0].Name() != "s" {
		t.Errorf("%v %v", left, err)
	}
}
