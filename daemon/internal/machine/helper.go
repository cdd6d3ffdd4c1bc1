package machine

import (
	"context"
	"errors"
	"fmt"
	"io"
	"os/exec"
	"path/filepath"
	"strings"
)

// FindHelper looks at a program in Go that works beside llbm, with the same bounds.
func FindHelper(path string, limits Limits) (*Program, error) {
	path, err := exec.LookPath(path)
	if err == nil {
		path, err = filepath.Abs(path) // it is run in another folder
	}
	if err != nil {
		return nil, err
	}
	return &Program{Path: path, Limits: limits, isHelper: true}, nil
}

// helperMemory lets a program in Go collect its garbage before the system refuses memory to it: at three quarters of the bound.
func (p *Program) helperMemory() []string {
	if p.Limits.Memory == 0 {
		return nil
	}
	return []string{fmt.Sprintf("GOMEMLIMIT=%d", p.Limits.Memory/4*3)}
}

// A Talk is a process of a helper that reads and writes lines.
type Talk struct {
	*process
	In  io.WriteCloser
	out io.Reader
}

// Talk starts a helper, which is killed when the context ends.
func (p *Program) Talk(ctx context.Context, words ...string) (*Talk, error) {
	t, err := p.talk(ctx, words...)
	if err == nil {
		t.limitTime()
	}
	return t, err
}

// talk starts a helper whose time has not begun.
func (p *Program) talk(ctx context.Context, words ...string) (*Talk, error) {
	process, err := p.start(ctx, nil, nil, nil, words...)
	if err != nil {
		return nil, err
	}
	t := &Talk{process: process}
	if t.In, err = process.cmd.StdinPipe(); err != nil {
		return nil, err
	}
	if t.out, err = process.cmd.StdoutPipe(); err != nil {
		return nil, err
	}
	return t, process.begin()
}

// Read reads what the process writes.
func (t *Talk) Read(data []byte) (int, error) {
	n, err := t.out.Read(data)
	if over := t.count(n); over != nil {
		return 0, over
	}
	return n, err
}

// Stop ends the process at once.
func (t *Talk) Stop() {
	t.cancel(nil)
	_ = t.wait()
}

// Why returns why the process stopped talking, in words; it ends it.
func (t *Talk) Why(err error) string {
	limits := t.program.Limits
	if !errors.Is(err, io.EOF) && !errors.Is(err, io.ErrUnexpectedEOF) {
		t.cancel(err)
	}
	_ = t.In.Close()
	t.once.Do(func() { t.err = t.cmd.Wait() })
	if t.timer != nil {
		t.timer.Stop()
	}
	cause := context.Cause(t.ctx)
	messages := t.messages.String()
	t.Stop()
	switch {
	case cause == errTime:
		return fmt.Sprintf("it takes longer than %s", limits.Time)
	case cause == errOutput:
		return fmt.Sprintf("it writes more than %d bytes", limits.Output)
	case strings.Contains(messages, "out of memory") || strings.Contains(messages, "cannot allocate memory"):
		return fmt.Sprintf("it needs more memory than %d bytes", limits.Memory)
	case t.err != nil && !errors.Is(t.err, context.Canceled):
		return fmt.Sprintf("%s: %v: %.500s", filepath.Base(t.program.Path), t.err, strings.TrimSpace(messages))
	}
	return err.Error()
}
