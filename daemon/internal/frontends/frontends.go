// Package frontends runs frontends as children: without rights, with bounds, and with the gateway on their standard input
// and output, as BuildKit runs those of images.
package frontends

import (
	"context"
	"encoding/json"
	"errors"
	"fmt"
	"os"
	"os/exec"
	"path/filepath"
	"slices"
	"sort"
	"strings"
	"sync"
	"sync/atomic"
	"syscall"
	"time"

	"github.com/distribution/reference"
	apitypes "github.com/moby/buildkit/api/types"
	gatewaypb "github.com/moby/buildkit/frontend/gateway/pb"
	"golang.org/x/net/http2"
	"google.golang.org/grpc"
	"google.golang.org/grpc/codes"
	"google.golang.org/grpc/health"
	"google.golang.org/grpc/health/grpc_health_v1"
	"google.golang.org/grpc/status"
	"llbm/daemon/internal/builds"
	"llbm/daemon/internal/gateway"
	"llbm/daemon/internal/machine"
)

const (
	nobody       = 65534
	mostFiles    = 256
	mostMessages = 1 << 16
	// mostOfOption is the longest text that Linux hands to a program in its environment (MAX_ARG_STRLEN, less the zero at its end).
	mostOfOption = 32*4096 - 1
	// images is the frontend of BuildKit that runs a frontend's image, which its option `source` names.
	images = "gateway.v0"
	// dockerfiles is the frontend whose images a Dockerfile names in its first line.
	dockerfiles = "dockerfile.v0"
)

// ofDockerfiles are the images of the frontend for Dockerfiles, whatever their tags are.
var ofDockerfiles = []string{"docker.io/docker/dockerfile", "docker.io/docker/dockerfile-upstream"}

// Frontends are programs by name.
type Frontends struct {
	Programs map[string]string
	AtOnce   int // how many that clients ask for run at once; others wait
	Limits   machine.Limits
	Gateway  *gateway.Gateway
	Server   func() *grpc.Server // makes the server of a child's connection
	shared   atomic.Bool         // whether a network of its own can't be had for a child
	once     sync.Once
	slots    chan struct{}
}

// Set adds NAME=PROGRAM.
func (f *Frontends) Set(text string) error {
	name, program, ok := strings.Cut(text, "=")
	if !ok || name == "" || program == "" {
		return fmt.Errorf("%q is not NAME=PROGRAM", text)
	}
	program, err := exec.LookPath(program)
	if err == nil {
		program, err = filepath.Abs(program) // it is run in another folder
	}
	if err != nil {
		return err
	}
	if err := executable(program, os.Getuid()); err != nil {
		return err
	}
	if f.Programs == nil {
		f.Programs = map[string]string{}
	}
	f.Programs[name] = program
	return nil
}

// executable refuses a program that its mode keeps from the user as whom frontends run if the daemon is root.
func executable(program string, user int) error {
	found, err := os.Stat(program)
	if err == nil && user == 0 && found.Mode()&0o001 == 0 {
		return fmt.Errorf("user %d, as whom frontends of root run, may not execute it: chmod a+rx %s", nobody, program)
	}
	return err
}

// String lists the names.
func (f *Frontends) String() string {
	var names []string
	for name := range f.Programs {
		names = append(names, name)
	}
	sort.Strings(names)
	return strings.Join(names, " ")
}

func (f *Frontends) find(frontend gateway.Frontend) (string, error) {
	asked, names := frontend.Name, []string{frontend.Name}
	if source := frontend.Options["source"]; asked == images && source != "" {
		asked, names = source, append(names, source)
		if isOfDockerfiles(source) {
			names = append(names, dockerfiles)
		}
	}
	for _, name := range names {
		if program, ok := f.Programs[name]; ok {
			return program, nil
		}
	}
	return "", status.Errorf(codes.Unimplemented, "llbmd has no frontend %q: it was started with %q (-frontend NAME=PROGRAM adds one)", asked, f.String())
}

// isOfDockerfiles is whether an image is one of the frontend for Dockerfiles, as in `# syntax=docker/dockerfile:1`.
func isOfDockerfiles(image string) bool {
	named, err := reference.ParseNormalizedNamed(image)
	return err == nil && slices.Contains(ofDockerfiles, named.Name())
}

// Run runs a frontend for a build, and returns its result.
func (f *Frontends) Run(ctx context.Context, b *builds.Build, frontend gateway.Frontend) (*gateway.Returned, error) {
	program, err := f.find(frontend)
	if err != nil {
		return nil, err
	}
	env, err := environment(b, frontend, f.Gateway.Workers)
	if err != nil {
		return nil, err
	}
	leave, err := f.enter(ctx, b, frontend)
	if err != nil {
		return nil, err
	}
	defer leave()
	ctx, cancel := context.WithCancel(ctx)
	defer cancel()
	bridge, returned := f.Gateway.For(b, frontend)
	c, err := f.start(ctx, program, env)
	if err != nil {
		return nil, notStarted(frontend.Name, env, err)
	}
	server := f.Server()
	gatewaypb.RegisterLLBBridgeServer(server, bridge)
	grpc_health_v1.RegisterHealthServer(server, health.NewServer())
	served := make(chan struct{})
	go func() {
		defer close(served)
		(&http2.Server{}).ServeConn(c.conn, &http2.ServeConnOpts{Context: ctx, Handler: server})
	}()
	result, err := c.await(ctx, b, returned)
	cancel()
	_ = c.conn.Close()
	<-served
	<-c.ended
	if errors.Is(err, errEnded) {
		return nil, status.Errorf(codes.Unknown, "frontend %s, %s, ended without a result %s", frontend.Name, program, c.ending())
	}
	return result, err
}

// enter waits until one more frontend may run. One that a frontend calls does not wait, as its caller waits for it; a build has few.
func (f *Frontends) enter(ctx context.Context, b *builds.Build, frontend gateway.Frontend) (leave func(), err error) {
	ended, err := b.EnterFrontend()
	if err != nil || frontend.IsCalled {
		return ended, err
	}
	f.once.Do(func() { f.slots = make(chan struct{}, max(1, f.AtOnce)) })
	select {
	case f.slots <- struct{}{}:
		return func() { <-f.slots; ended() }, nil
	case <-ctx.Done():
		ended()
		return nil, status.FromContextError(ctx.Err()).Err()
	}
}

// notStarted returns why a frontend could not be started.
func notStarted(name string, env []string, err error) error {
	if !errors.Is(err, syscall.E2BIG) {
		return status.Errorf(codes.Internal, "frontend %s: %v", name, err)
	}
	size := 0
	for _, one := range env {
		size += len(one) + 1
	}
	return status.Errorf(codes.InvalidArgument, "frontend %s: its options have %d bytes together, more than the kernel hands to a program", name, size)
}

// environment is all that a frontend is told, in the form that BuildKit has for it. An option that no program can be given is refused.
func environment(b *builds.Build, frontend gateway.Frontend, workers []*apitypes.WorkerRecord) ([]string, error) {
	type platform struct {
		Architecture string `json:"architecture"`
		OS           string `json:"os"`
	}
	type worker struct {
		ID        string
		Labels    map[string]string
		Platforms []platform
	}
	var all []worker
	for _, w := range workers {
		one := worker{ID: w.ID, Labels: w.Labels}
		for _, p := range w.Platforms {
			one.Platforms = append(one.Platforms, platform{p.Architecture, p.OS})
		}
		all = append(all, one)
	}
	text, _ := json.Marshal(all) // strings always marshal
	env := []string{"BUILDKIT_SESSION_ID=" + b.Session, "BUILDKIT_WORKERS=" + string(text), "BUILDKIT_EXPORTEDPRODUCT=llbmd"}
	var keys []string
	for k := range frontend.Options {
		keys = append(keys, k)
	}
	sort.Strings(keys)
	for i, k := range keys {
		option := fmt.Sprintf("BUILDKIT_FRONTEND_OPT_%d=%s=%s", i, k, frontend.Options[k])
		if len(option) > mostOfOption {
			return nil, status.Errorf(codes.InvalidArgument,
				"frontend %s: the option %.100s has %d bytes, and an option has at most %d with its name",
				frontend.Name, k, len(frontend.Options[k]), mostOfOption)
		}
		env = append(env, option)
	}
	return env, nil
}

// attributes give a child nothing of the daemon's rights: its own process group, user nobody if the daemon is root, no new
// privileges, and no network if the kernel lets it be taken away.
func (f *Frontends) attributes() *syscall.SysProcAttr {
	attributes := &syscall.SysProcAttr{Setpgid: true, Pdeathsig: syscall.SIGKILL}
	root := os.Getuid() == 0
	if root {
		attributes.Credential = &syscall.Credential{Uid: nobody, Gid: nobody}
	}
	if f.shared.Load() {
		return attributes
	}
	attributes.Cloneflags = syscall.CLONE_NEWNET | syscall.CLONE_NEWIPC
	if !root {
		attributes.Cloneflags |= syscall.CLONE_NEWUSER
		attributes.UidMappings = []syscall.SysProcIDMap{{ContainerID: nobody, HostID: os.Getuid(), Size: 1}}
		attributes.GidMappings = []syscall.SysProcIDMap{{ContainerID: nobody, HostID: os.Getgid(), Size: 1}}
	}
	return attributes
}

// command is what runs a program within its bounds. A shell sets them, as only the child itself may once it has another
// user; it becomes the program, or ends if a bound can't be set. The other user may not be let into a folder on the program's
// path: then the program is what the daemon has opened, as descriptor 3.
func (f *Frontends) command(program string) []string {
	bounds := []string{"ulimit -c 0", "ulimit -f 0", fmt.Sprintf("ulimit -n %d", mostFiles)}
	if f.Limits.Memory > 0 {
		bounds = append(bounds, fmt.Sprintf("ulimit -d %d", max(1, f.Limits.Memory>>10)))
	}
	if f.Limits.Time > 0 {
		bounds = append(bounds, fmt.Sprintf("ulimit -t %d", (f.Limits.Time+time.Second-1)/time.Second))
	}
	return []string{"/bin/sh", "-c", strings.Join(bounds, " && ") + ` && { [ ! -x "$0" ] || exec "$0" 3<&-; } && exec /proc/self/fd/3`, program}
}
