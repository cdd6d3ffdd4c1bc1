package builds

import (
	"context"
	"errors"
	"fmt"
	"strings"
	"sync"
	"testing"
	"time"

	controlapi "github.com/moby/buildkit/api/services/control"
	"github.com/moby/buildkit/solver/pb"
	"google.golang.org/grpc/codes"
	"google.golang.org/grpc/status"
	"llbm/daemon/internal/results"
)

func TestABuildIsItsUsersAlone(t *testing.T) {
	all := New(10)
	b, err := all.Start(context.Background(), 1000, "ref", "session")
	if err != nil {
		t.Fatal(err)
	}
	if got, err := all.Get(context.Background(), 1000, "ref"); err != nil || got != b {
		t.Error(err)
	}
	ctx, cancel := context.WithTimeout(context.Background(), 50*time.Millisecond)
	defer cancel()
	if _, err := all.Get(ctx, 1001, "ref"); err == nil {
		t.Error("another user has it")
	}
	if _, err := all.Start(context.Background(), 1001, "ref", ""); status.Code(err) != codes.AlreadyExists {
		t.Error(err)
	}
}

// An asked context says when its end is waited for.
type asked struct {
	context.Context
	once sync.Once
	wait chan struct{}
}

func (a *asked) Done() <-chan struct{} {
	a.once.Do(func() { close(a.wait) })
	return a.Context.Done()
}

func TestABuildIsWaitedFor(t *testing.T) {
	all, ctx := New(10), &asked{Context: context.Background(), wait: make(chan struct{})}
	got := make(chan error)
	go func() {
		_, err := all.Get(ctx, 0, "late")
		got <- err
	}()
	<-ctx.wait
	if _, err := all.Start(context.Background(), 0, "late", ""); err != nil {
		t.Fatal(err)
	}
	if err := <-got; err != nil {
		t.Error(err)
	}
}

func TestBuildsAndResultsAreBounded(t *testing.T) {
	all := New(2)
	first, err := all.Start(context.Background(), 0, "a", "")
	if err != nil {
		t.Fatal(err)
	}
	if _, err := all.Start(context.Background(), 0, "b", ""); err != nil {
		t.Fatal(err)
	}
	if _, err := all.Start(context.Background(), 0, "c", ""); status.Code(err) != codes.ResourceExhausted {
		t.Error(err)
	}
	closed := false
	first.OnEnd(func() { closed = true })
	for i := range mostResults {
		if err := first.AddResult(results.Lazily(fmt.Sprint(i), nil, nil)); err != nil {
			t.Fatal(err)
		}
	}
	if err := first.AddResult(results.Lazily("one more", nil, nil)); status.Code(err) != codes.ResourceExhausted {
		t.Error(err)
	}
	if first.Result("7").ID != "7" || first.Result("none") != nil {
		t.Error(first.Result("7"))
	}
	all.End(first)
	if !closed || first.Result("7") != nil || all.Running() != 1 {
		t.Error(closed, first.Result("7"), all.Running())
	}
	if err := first.AddResult(results.Lazily("late", nil, nil)); status.Code(err) != codes.Canceled {
		t.Error(err)
	}
	closed = false
	if first.OnEnd(func() { closed = true }); !closed {
		t.Error("what a build gets after its end is not given up")
	}
	if _, err := all.Start(context.Background(), 0, "c", ""); err != nil {
		t.Error(err)
	}
}

// started starts builds.
func started(t *testing.T, all *Builds, refs ...string) []*Build {
	t.Helper()
	var out []*Build
	for _, ref := range refs {
		b, err := all.Start(context.Background(), 0, ref, "")
		if err != nil {
			t.Fatal(err)
		}
		out = append(out, b)
	}
	return out
}

func TestWhatABuildHoldsInMemoryIsBounded(t *testing.T) {
	b := started(t, New(1), "a")[0]
	if err := b.Hold(mostOfBuild - 1); err != nil {
		t.Fatal(err)
	}
	err := b.Hold(2)
	if status.Code(err) != codes.ResourceExhausted || !strings.Contains(err.Error(), "the build holds 268435455 bytes in memory") {
		t.Error(err)
	}
	b.Free(1)
	if err := b.Hold(2); err != nil {
		t.Error(err)
	}
}

func TestWhatAllBuildsHoldInMemoryIsBounded(t *testing.T) {
	all := New(10)
	several := started(t, all, "a", "b", "c", "d", "e")
	for _, b := range several[:4] {
		if err := b.Hold(mostOfAll / 4); err != nil {
			t.Fatal(err)
		}
	}
	last := several[4]
	if err := last.Hold(1); status.Code(err) != codes.ResourceExhausted || !strings.Contains(err.Error(), "all builds hold") {
		t.Error(err)
	}
	all.End(several[0])
	if err := last.Hold(mostOfAll / 4); err != nil {
		t.Error("an ended build holds memory:", err)
	}
	several[0].Free(mostOfAll / 4) // too late
	if err := last.Hold(1); status.Code(err) != codes.ResourceExhausted {
		t.Error(err)
	}
}

func TestEndedBuildsGiveUpTheirProgressForOthers(t *testing.T) {
	all := New(100)
	var first *Build
	for n := range mostOfAll/mostOfEvents + 1 {
		b := started(t, all, fmt.Sprint(n))[0]
		b.Events.Add(&controlapi.StatusResponse{})
		b.Events.bytes = mostOfEvents // as if it were so much
		if err := b.Hold(mostOfEvents); err != nil {
			t.Fatal(n, err)
		}
		if first == nil {
			first = b
		}
		all.End(b)
	}
	ctx, cancel := context.WithCancel(context.Background())
	cancel()
	if _, err := all.Get(ctx, 0, first.Ref); err == nil {
		t.Error("the first build is there")
	}
	if _, err := all.Get(ctx, 0, "7"); err != nil {
		t.Error(err)
	}
}

func TestABuildIsGivenItsInputsBeforeTheyAreRead(t *testing.T) {
	all := New(10)
	b := started(t, all, "a")[0]
	got := make(chan error)
	go func() {
		inputs, _, err := b.Given(context.Background())
		if err == nil && inputs["x"] == nil {
			err = errors.New("no input")
		}
		got <- err
	}()
	b.Give(map[string]*pb.Definition{"x": {}}, nil)
	if err := <-got; err != nil {
		t.Error(err)
	}
	ctx, cancel := context.WithCancel(context.Background())
	never, err := all.Start(ctx, 0, "never", "")
	if err != nil {
		t.Fatal(err)
	}
	cancel()
	if _, _, err := never.Given(context.Background()); status.Code(err) != codes.Canceled {
		t.Error(err)
	}
}

func logged(text string) *controlapi.StatusResponse {
	return &controlapi.StatusResponse{Logs: []*controlapi.VertexLog{{Msg: []byte(text)}}}
}

func followed(t *testing.T, e *Events) string {
	t.Helper()
	var out strings.Builder
	err := e.Follow(context.Background(), func(message *controlapi.StatusResponse) error {
		for _, l := range message.Logs {
			out.Write(l.Msg)
		}
		return nil
	})
	if err != nil {
		t.Error(err)
	}
	return out.String()
}

func TestEachFollowerSeesAllEvents(t *testing.T) {
	e := newEvents(func(int) error { return nil })
	e.Add(logged("a"))
	early := make(chan string)
	go func() { early <- followed(t, e) }()
	e.Add(logged("b"))
	e.end()
	e.Add(logged("too late"))
	if got, late := <-early, followed(t, e); got != "ab" || late != "ab" {
		t.Error(got, late)
	}
}

func TestProgressIsBounded(t *testing.T) {
	e := newEvents(func(int) error { return nil })
	for i := 0; i < 40; i++ {
		e.Add(logged(strings.Repeat("x", 1<<20)))
	}
	e.end()
	got := followed(t, e)
	if len(got) > mostOfEvents+1<<21 || !strings.HasSuffix(got, "its progress is too long to be shown\n") {
		t.Error(len(got))
	}
}
