package machine

import (
	"bufio"
	"context"
	"io"
	"strings"
	"syscall"
	"testing"
	"time"
)

// waiting returns a shell as a helper that is ready, which says its number and its bound of memory once it is sent a line.
func waiting(t *testing.T, limits Limits, then string) *Ahead {
	t.Helper()
	helper, err := FindHelper("/bin/sh", limits)
	if err != nil {
		t.Fatal(err)
	}
	a := helper.Ahead("-c", "read line; echo $$ $(ulimit -d); "+then)
	t.Cleanup(a.Close)
	a.Ready()
	return a
}

// reply sends a line, and returns the one that is said then.
func reply(t *testing.T, talk *Talk) string {
	t.Helper()
	if _, err := io.WriteString(talk.In, "a line\n"); err != nil {
		t.Fatal(err)
	}
	line, err := bufio.NewReader(talk).ReadString('\n')
	if err != nil {
		t.Fatal(err)
	}
	return strings.TrimSpace(line)
}

// The helper that waits is the one that talks, and it was bounded as it started.
func TestOneHelperWaitsAhead(t *testing.T) {
	a := waiting(t, Limits{Memory: 1 << 30, Time: time.Hour}, "exit")
	a.Ready() // one waits already
	spare := a.spare
	if spare.timer != nil {
		t.Error("the time of a helper begins before it is used")
	}
	talk, err := a.Talk(context.Background())
	if err != nil {
		t.Fatal(err)
	}
	defer talk.Stop()
	if talk != spare || talk.timer == nil || a.spare != nil {
		t.Error("it is another one, or it has all time, or it still waits")
	}
	if got := reply(t, talk); !strings.HasSuffix(got, " 1048576") {
		t.Errorf("%q", got)
	}
	other, err := a.Talk(context.Background())
	if err != nil {
		t.Fatal(err)
	}
	defer other.Stop()
	if reply(t, other) == "" || other.timer == nil {
		t.Error("the one that is started as it is used has no bounds")
	}
}

func TestTheTimeOfAHelperThatWaitedIsBounded(t *testing.T) {
	a := waiting(t, Limits{Time: time.Millisecond}, "exec sleep 100000")
	talk, err := a.Talk(context.Background())
	if err != nil {
		t.Fatal(err)
	}
	if _, err = io.ReadAll(talk); err == nil {
		err = io.EOF
	}
	if why := talk.Why(err); why != "it takes longer than 1ms" {
		t.Error(why)
	}
}

func TestAHelperThatWaitedEndsWithItsContext(t *testing.T) {
	a := waiting(t, Limits{}, "exec sleep 100000")
	ctx, cancel := context.WithCancel(context.Background())
	talk, err := a.Talk(ctx)
	if err != nil {
		t.Fatal(err)
	}
	reply(t, talk)
	cancel()
	_, _ = io.ReadAll(talk)
	talk.Stop()
}

func TestAHelperThatDiedAsItWaitedIsNotUsed(t *testing.T) {
	a := waiting(t, Limits{}, "exit")
	dead := a.spare
	if err := dead.cmd.Process.Signal(syscall.SIGKILL); err != nil {
		t.Fatal(err)
	}
	for wait := time.Now().Add(10 * time.Minute); !dead.hasEnded(); time.Sleep(time.Millisecond) {
		if time.Now().After(wait) {
			t.Fatal("no answer: the process that waited is not seen to have ended")
		}
	}
	talk, err := a.Talk(context.Background())
	if err != nil {
		t.Fatal(err)
	}
	defer talk.Stop()
	if talk == dead || reply(t, talk) == "" {
		t.Error("the dead one is used")
	}
}

func TestNoHelperWaitsAfterTheEnd(t *testing.T) {
	a := waiting(t, Limits{}, "exit")
	spare := a.spare
	a.Close()
	a.Ready()
	if a.spare != nil || spare.cmd.ProcessState == nil {
		t.Error("one waits")
	}
}
