package machine

import (
	"context"
	"sync"

	"golang.org/x/sys/unix"
)

// Ahead is a helper that is started ahead of need, so that a build finds one that runs. At most one waits.
type Ahead struct {
	program *Program
	words   []string

	mu     sync.Mutex
	spare  *Talk
	closed bool
}

// Ahead returns a helper with the words that it is started with. None is started yet.
func (p *Program) Ahead(words ...string) *Ahead { return &Ahead{program: p, words: words} }

// Ready starts a helper that waits, if none does. It has the bound of memory; its time begins as it is used. If it can't be started,
// the next use says why.
func (a *Ahead) Ready() {
	a.mu.Lock()
	defer a.mu.Unlock()
	if a.spare != nil || a.closed {
		return
	}
	if spare, err := a.program.talk(context.Background(), a.words...); err == nil {
		a.spare = spare
	}
}

// Talk returns a helper that is killed when the context ends: the one that waits, or else one that is started now.
func (a *Ahead) Talk(ctx context.Context) (*Talk, error) {
	t := a.take()
	if t == nil {
		return a.program.Talk(ctx, a.words...)
	}
	context.AfterFunc(ctx, func() { t.cancel(context.Cause(ctx)) })
	t.limitTime()
	return t, nil
}

// take returns the helper that waits, or nil if there is none, or if it has ended.
func (a *Ahead) take() *Talk {
	a.mu.Lock()
	defer a.mu.Unlock()
	t := a.spare
	a.spare = nil
	if t != nil && t.hasEnded() {
		t.Stop()
		return nil
	}
	return t
}

// Waiting returns the number of the process that waits, or 0.
func (a *Ahead) Waiting() int {
	a.mu.Lock()
	defer a.mu.Unlock()
	if a.spare == nil {
		return 0
	}
	return a.spare.cmd.Process.Pid
}

// Close ends the helper that waits. No other one will.
func (a *Ahead) Close() {
	a.mu.Lock()
	defer a.mu.Unlock()
	a.closed = true
	if a.spare != nil {
		a.spare.Stop()
		a.spare = nil
	}
}

// hasEnded is whether a process that nobody waits for has ended.
func (r *process) hasEnded() bool {
	var info unix.Siginfo
	err := unix.Waitid(unix.P_PID, r.cmd.Process.Pid, &info, unix.WEXITED|unix.WNOHANG|unix.WNOWAIT, nil)
	return err != nil || info.Signo != 0
}
