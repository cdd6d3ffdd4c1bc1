package machine

import (
	"context"
	"errors"
	"os"
	"path/filepath"
	"strings"
	"sync/atomic"
	"testing"

	"golang.org/x/sys/unix"
	"google.golang.org/grpc/codes"
	"google.golang.org/grpc/status"
)

// script writes a program.
func script(t *testing.T, text string) string {
	t.Helper()
	path := filepath.Join(t.TempDir(), "llbm")
	if err := os.WriteFile(path, []byte("#!/bin/sh\n"+text), 0o700); err != nil {
		t.Fatal(err)
	}
	return path
}

func TestAProgramIsFoundFromTheWorkingFolder(t *testing.T) {
	path := script(t, "echo llbm 1.0")
	t.Chdir(filepath.Dir(path))
	program, err := Find(context.Background(), "./llbm", Limits{})
	if err != nil {
		t.Fatal(err)
	}
	if text, err := program.show(context.Background(), nil, 0); err != nil || text != "llbm 1.0\n" {
		t.Errorf("%q %v", text, err)
	}
}

func TestTheLastOutputMayBeReadLate(t *testing.T) {
	program := &Program{Path: script(t, "(while kill -0 $$; do sleep 0.01; done 2>/dev/null; echo late) &"), Proved: true}
	if text, err := program.show(context.Background(), nil, 0); err != nil || text != "late\n" {
		t.Errorf("%q %v", text, err)
	}
}

func TestOutputPastItsBoundIsRefusedAfterItsEnd(t *testing.T) {
	ctx := context.Background()
	program := &Program{Path: script(t, "printf '%200d\\n%200d\\n' 1 2"), Proved: true, Limits: Limits{Output: 300}}
	if text, err := program.show(ctx, nil, 0); !tooMuch(err) {
		t.Errorf("%q %v", text, err)
	}
	run := stepped(t, program)
	untilEnded(t, run)
	if line, err := run.read(); err != nil || len(line) != 200 {
		t.Errorf("%q %v", line, err)
	}
	if line, err := run.read(); !tooMuch(err) {
		t.Errorf("%q %v", line, err)
	}
}

func TestWhatAProgramSaysLastIsReadAfterItsEnd(t *testing.T) {
	run := stepped(t, &Program{Path: script(t, "echo '1 claim 0 0 -> file 1'\necho\necho 'fault 123'\necho\nexit 1"), Proved: true})
	untilEnded(t, run) // what it is asked can't be sent any more
	if event, more, err := run.Next(); err != nil || !more || event.Kind != Claim {
		t.Errorf("%+v %v %v", event, more, err)
	}
	run.outstanding = 0
	if event, more, err := run.Next(); status.Code(err) != codes.ResourceExhausted || !strings.Contains(err.Error(), "fault 123") {
		t.Errorf("%+v %v %v", event, more, err)
	}
}

// stepped begins a session of a program that reads no definition.
func stepped(t *testing.T, program *Program) *Run {
	t.Helper()
	definition, err := InMemory("definition")
	if err != nil {
		t.Fatal(err)
	}
	t.Cleanup(func() { _ = definition.Close() })
	run, err := program.Step(context.Background(), definition, nil, 1, new(atomic.Int64))
	if err != nil {
		t.Fatal(err)
	}
	t.Cleanup(run.Stop)
	return run
}

// untilEnded waits until a process has ended, and leaves it for its parent to wait for.
func untilEnded(t *testing.T, run *Run) {
	t.Helper()
	for {
		err := unix.Waitid(unix.P_PID, run.cmd.Process.Pid, nil, unix.WEXITED|unix.WNOWAIT, nil)
		if err == nil {
			return
		}
		if !errors.Is(err, unix.EINTR) {
			t.Fatal(err)
		}
	}
}

func tooMuch(err error) bool {
	return status.Code(err) == codes.ResourceExhausted && strings.Contains(err.Error(), "wrote more than 300 bytes")
}
