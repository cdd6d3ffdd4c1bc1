// Package machine runs the program llbm: one process for each build, with bounds on its memory, time and output.
package machine

import (
	"bytes"
	"context"
	"errors"
	"fmt"
	"io"
	"os"
	"os/exec"
	"path/filepath"
	"strings"
	"sync"
	"sync/atomic"
	"syscall"
	"time"

	"golang.org/x/sys/unix"
)

// Limits bound each process of the program. A zero is no bound.
type Limits struct {
	Memory int64
	Time   time.Duration
	Output int64
}

var (
	errTime   = errors.New("the build takes too long")
	errOutput = errors.New("the build writes too much")
	errAside  = errors.New("a tree that is read aside is too large")
)

const (
	// mostMessages bounds what is kept of standard error.
	mostMessages = 1 << 16
	// patience bounds the wait for the last output of a process that has ended, which on a busy host may take seconds to be read,
	// and for a program that is asked for its version.
	patience = time.Minute
)

// A Program is llbm, proved or not.
type Program struct {
	Path    string
	Version string
	Proved  bool
	Limits  Limits

	isHelper bool          // whether it is a program in Go
	atOnce   chan struct{} // has an element for each process that works on a definition, or is nil if there is no bound
}

// Find looks at a program.
func Find(ctx context.Context, path string, limits Limits) (*Program, error) {
	path, err := exec.LookPath(path)
	if err == nil {
		path, err = filepath.Abs(path) // it is run in another folder
	}
	if err != nil {
		return nil, err
	}
	// The version comes with the status 2, and after a line with a fault.
	said, err := versionOf(ctx, path)
	for _, line := range strings.Split(said, "\n") {
		if strings.HasPrefix(line, "llbm ") {
			return &Program{Path: path, Version: line, Proved: !strings.Contains(line, "not proved"), Limits: limits}, nil
		}
	}
	if err != nil {
		return nil, fmt.Errorf("%s --version prints no version of llbm: %.80q: %w", path, said, err)
	}
	return nil, fmt.Errorf("%s --version prints no version of llbm: %.80q", path, said)
}

// versionOf returns what a program prints with --version. It may be any program, so it is killed if it does not end.
func versionOf(ctx context.Context, path string) (string, error) {
	ctx, cancel := context.WithTimeout(ctx, patience)
	defer cancel()
	var said bounded
	cmd := exec.CommandContext(ctx, path, "--version")
	cmd.Stdout, cmd.Stderr = &said, &said
	cmd.SysProcAttr = &syscall.SysProcAttr{Setpgid: true}
	cmd.Cancel = func() error { return syscall.Kill(-cmd.Process.Pid, syscall.SIGKILL) }
	err := cmd.Run()
	if errors.Is(ctx.Err(), context.DeadlineExceeded) {
		err = errors.New("it does not end")
	}
	return said.String(), err
}

// A process is one run of the program, bounded.
type process struct {
	cmd      *exec.Cmd
	ctx      context.Context
	cancel   context.CancelCauseFunc
	messages *bounded
	timer    *time.Timer
	program  *Program
	written  *atomic.Int64
	answer   int // an exit status that is no error if standard error is empty, or 0
	once     sync.Once
	err      error
}

func (p *Program) start(ctx context.Context, in io.Reader, out io.Writer, files []*os.File, words ...string) (*process, error) {
	ctx, cancel := context.WithCancelCause(ctx)
	run := &process{ctx: ctx, cancel: cancel, messages: &bounded{}, program: p, written: new(atomic.Int64)}
	run.cmd = exec.CommandContext(ctx, p.Path, words...)
	run.cmd.Stdin, run.cmd.Stdout, run.cmd.Stderr = in, out, run.messages
	run.cmd.ExtraFiles = files
	run.cmd.Dir = "/"
	run.cmd.Env = []string{"LC_ALL=C"}
	run.cmd.SysProcAttr = &syscall.SysProcAttr{Setpgid: true, Pdeathsig: syscall.SIGKILL}
	run.cmd.WaitDelay = patience
	switch {
	case p.isHelper:
		run.cmd.Env = append(run.cmd.Env, p.helperMemory()...)
	case !p.Proved:
		run.cmd.Env = append(run.cmd.Env, "ASAN_OPTIONS="+p.sanitizer())
	}
	return run, nil
}

// sanitizer returns the settings of the address sanitizer, which the program without proof has. It reserves more address space than
// it uses, so the bound of memory is on what it uses. By itself it bounds its core files as it starts, and aborts if the daemon,
// which does that too, is in between.
func (p *Program) sanitizer() string {
	settings := "disable_coredump=0"
	if p.Limits.Memory > 0 {
		settings += fmt.Sprintf(":hard_rss_limit_mb=%d", max(1, p.Limits.Memory>>20))
	}
	return settings
}

// begin starts the process and bounds its memory, before it has been sent anything.
func (r *process) begin() error {
	if err := Start(r.cmd); err != nil {
		r.cancel(nil)
		return err
	}
	limits := r.program.Limits
	err := bound(r.cmd.Process.Pid, unix.RLIMIT_CORE, 0)
	if resource, ok := r.program.bounded(); ok && err == nil {
		err = bound(r.cmd.Process.Pid, resource, uint64(limits.Memory))
	}
	if err != nil {
		r.cancel(err)
		_ = r.wait()
		return fmt.Errorf("%s can't be bounded: %w", filepath.Base(r.program.Path), err)
	}
	return nil
}

// limitTime begins the time that the process may take.
func (r *process) limitTime() {
	if most := r.program.Limits.Time; most > 0 {
		r.timer = time.AfterFunc(most, func() { r.cancel(errTime) })
	}
}

// bounded returns the resource by which the kernel bounds the program's memory, if it does. A program in Go reserves more address
// space than it uses.
func (p *Program) bounded() (resource int, ok bool) {
	switch {
	case p.Limits.Memory == 0:
		return 0, false
	case p.isHelper:
		return unix.RLIMIT_DATA, true
	}
	return unix.RLIMIT_AS, p.Proved
}

func bound(pid, resource int, most uint64) error {
	return unix.Prlimit(pid, resource, &unix.Rlimit{Cur: most, Max: most}, nil)
}

// wait waits for the end of the process, and returns why it ended, or nil. Later calls return the same.
func (r *process) wait() error {
	r.once.Do(func() { r.err = r.end() })
	return r.err
}

func (r *process) end() error {
	err := r.cmd.Wait()
	if r.timer != nil {
		r.timer.Stop()
	}
	if exit := (&exec.ExitError{}); errors.As(err, &exit) && exit.ExitCode() == r.answer && r.messages.String() == "" {
		err = nil
	}
	if err != nil || r.ctx.Err() != nil {
		err = r.program.ended(r.ctx, r.messages.String(), err)
	}
	r.cancel(nil)
	return err
}

// count adds to the bytes that the process wrote. If they are too many it ends the process and fails: what was written may
// all have been received by then, and the process may have ended well.
func (r *process) count(n int) error {
	written := r.written.Add(int64(n))
	if most := r.program.Limits.Output; most > 0 && written > most {
		r.cancel(errOutput)
		return errOutput
	}
	return nil
}

// bounded keeps the first bytes that are written to it.
type bounded struct {
	mu   sync.Mutex
	text bytes.Buffer
}

func (b *bounded) Write(data []byte) (int, error) {
	b.mu.Lock()
	defer b.mu.Unlock()
	b.text.Write(data[:min(len(data), mostMessages-b.text.Len())])
	return len(data), nil
}

func (b *bounded) String() string {
	b.mu.Lock()
	defer b.mu.Unlock()
	return b.text.String()
}

func outOfMemory(messages string, err error) bool {
	var exit *exec.ExitError
	return strings.Contains(messages, "hard rss limit exhausted") || errors.As(err, &exit) && exit.ExitCode() == 3
}

// Plan returns how the contents of a definition's sources have to be given, or the definition's first fault.
func (p *Program) Plan(ctx context.Context, definition []byte) (*Plan, error) {
	text, err := p.show(ctx, definition, 0, "--plan")
	if err != nil {
		return nil, err
	}
	return parsePlan(text)
}

// Scripts returns the faults of the executions of a definition whose words are no scripts of llbm, whatever other faults it has.
func (p *Program) Scripts(ctx context.Context, definition []byte) ([]ScriptFault, error) {
	const hasFaults = 2
	text, err := p.show(ctx, definition, hasFaults, "--findings")
	if err != nil {
		return nil, err
	}
	var found []ScriptFault
	for _, line := range strings.Split(text, "\n") {
		if one, ok := parseScript(line); ok {
			found = append(found, one)
		}
	}
	return found, nil
}

// show returns what the program shows of a definition with options. If the definition is refused, with another status than that of an
// answer, the error is its first fault.
func (p *Program) show(ctx context.Context, definition []byte, answer int, options ...string) (string, error) {
	leave, err := p.enter(ctx)
	if err != nil {
		return "", err
	}
	defer leave()
	var out bytes.Buffer
	run, err := p.start(ctx, bytes.NewReader(definition), nil, nil, append([]string{"show"}, options...)...)
	if err != nil {
		return "", err
	}
	run.answer = answer
	run.cmd.Stdout = writer(func(data []byte) (int, error) {
		if err := run.count(len(data)); err != nil {
			return 0, err
		}
		return out.Write(data)
	})
	if err := run.begin(); err != nil {
		return "", err
	}
	run.limitTime()
	if err := run.wait(); err != nil {
		return "", err
	}
	return out.String(), nil
}

type writer func([]byte) (int, error)

func (w writer) Write(data []byte) (int, error) { return w(data) }
