package frontends

import (
	"bytes"
	"context"
	"errors"
	"fmt"
	"io"
	"net"
	"os"
	"os/exec"
	"strings"
	"sync"
	"syscall"
	"time"

	gatewaypb "github.com/moby/buildkit/frontend/gateway/pb"
	"golang.org/x/sys/unix"
	"google.golang.org/grpc/status"
	"llbm/daemon/internal/builds"
	"llbm/daemon/internal/gateway"
	"llbm/daemon/internal/machine"
)

// patience bounds the wait for the last messages of a frontend that has ended. On a busy host it may take seconds to read them.
const patience = time.Minute

// A child is a frontend's process.
type child struct {
	conn     net.Conn
	messages *messages
	ended    chan struct{}
	failed   error // why it ended, once it has
}

// start starts a program. It is killed, with all its children, when the context ends.
func (f *Frontends) start(ctx context.Context, program string, env []string) (*child, error) {
	c, cmd, err := f.try(ctx, program, env)
	if err != nil && !f.shared.Load() && (errors.Is(err, syscall.EPERM) || errors.Is(err, syscall.EINVAL) || errors.Is(err, syscall.ENOSPC)) {
		f.shared.Store(true)
		c, cmd, err = f.try(ctx, program, env)
	}
	if err != nil {
		return nil, err
	}
	go func() {
		defer close(c.ended)
		untilEnded(cmd.Process.Pid)
		// Until it is waited for, no other process or group has its number.
		_ = syscall.Kill(-cmd.Process.Pid, syscall.SIGKILL)
		c.failed = cmd.Wait()
	}()
	return c, nil
}

// untilEnded waits until a child has ended, which is left for its parent to wait for.
func untilEnded(pid int) {
	for errors.Is(unix.Waitid(unix.P_PID, pid, nil, unix.WEXITED|unix.WNOWAIT, nil), unix.EINTR) {
	}
}

func (f *Frontends) try(ctx context.Context, program string, env []string) (*child, *exec.Cmd, error) {
	c := &child{messages: &messages{}, ended: make(chan struct{})}
	opened, err := unix.Open(program, unix.O_PATH|unix.O_CLOEXEC, 0)
	if err != nil {
		return nil, nil, &os.PathError{Op: "open", Path: program, Err: err}
	}
	file := os.NewFile(uintptr(opened), program)
	defer file.Close()
	words := f.command(program)
	cmd := exec.CommandContext(ctx, words[0], words[1:]...)
	cmd.Env, cmd.Dir, cmd.Stderr, cmd.ExtraFiles = env, "/", c.messages, []*os.File{file}
	cmd.SysProcAttr = f.attributes()
	cmd.WaitDelay = patience
	cmd.Cancel = func() error { return syscall.Kill(-cmd.Process.Pid, syscall.SIGKILL) }
	in, err := cmd.StdinPipe()
	if err != nil {
		return nil, nil, err
	}
	out, err := cmd.StdoutPipe()
	if err != nil {
		return nil, nil, err
	}
	c.conn = &pipes{ReadCloser: out, in: in}
	if err := machine.Start(cmd); err != nil {
		_ = c.conn.Close()
		return nil, nil, err
	}
	return c, cmd, nil
}

// await waits for the frontend's result, or for its end without one, which is errEnded.
func (c *child) await(ctx context.Context, b *builds.Build, returned <-chan *gatewaypb.ReturnRequest) (*gateway.Returned, error) {
	select {
	case req := <-returned:
		return gateway.ReturnedBy(b, req)
	case <-ctx.Done():
	case <-c.ended:
	}
	if ctx.Err() != nil {
		return nil, status.FromContextError(ctx.Err()).Err()
	}
	select {
	case req := <-returned: // the result came just before the end
		return gateway.ReturnedBy(b, req)
	default:
		return nil, errEnded
	}
}

var errEnded = errors.New("the frontend ended without a result")

// ending says how a frontend ended that has no result.
func (c *child) ending() string {
	how := "exit status 0"
	if c.failed != nil {
		how = c.failed.Error()
	}
	if said := strings.TrimSpace(c.messages.String()); said != "" {
		return fmt.Sprintf("(%s): %.2000s", how, said)
	}
	return fmt.Sprintf("(%s), and wrote nothing to standard error", how)
}

// messages keeps the first bytes that the frontend writes to standard error.
type messages struct {
	mu   sync.Mutex
	text bytes.Buffer
}

func (m *messages) Write(data []byte) (int, error) {
	m.mu.Lock()
	defer m.mu.Unlock()
	m.text.Write(data[:min(len(data), mostMessages-m.text.Len())])
	return len(data), nil
}

func (m *messages) String() string {
	m.mu.Lock()
	defer m.mu.Unlock()
	return m.text.String()
}

// pipes are a frontend's standard output and input as a connection.
type pipes struct {
	io.ReadCloser
	in io.WriteCloser
}

func (p *pipes) Write(data []byte) (int, error) { return p.in.Write(data) }

func (p *pipes) Close() error {
	err := p.in.Close()
	if closed := p.ReadCloser.Close(); err == nil {
		err = closed
	}
	return err
}

func (p *pipes) LocalAddr() net.Addr              { return &net.UnixAddr{} }
func (p *pipes) RemoteAddr() net.Addr             { return &net.UnixAddr{} }
func (p *pipes) SetDeadline(time.Time) error      { return nil }
func (p *pipes) SetReadDeadline(time.Time) error  { return nil }
func (p *pipes) SetWriteDeadline(time.Time) error { return nil }
