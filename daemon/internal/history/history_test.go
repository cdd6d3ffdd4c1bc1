package history

import (
	"context"
	"errors"
	"fmt"
	"strings"
	"testing"

	controlapi "github.com/moby/buildkit/api/services/control"
	"google.golang.org/grpc/codes"
	"google.golang.org/grpc/status"
)

func refs(t *testing.T, h *History, user uint32) string {
	t.Helper()
	var out []string
	err := h.Listen(context.Background(), user, &controlapi.BuildHistoryRequest{EarlyExit: true}, func(event *controlapi.BuildHistoryEvent) error {
		out = append(out, event.Record.Ref)
		return nil
	})
	if err != nil {
		t.Error(err)
	}
	return fmt.Sprint(out)
}

func built(h *History, user uint32, ref string, err error) {
	h.End(h.Start(user, &controlapi.SolveRequest{Ref: ref}), nil, 1, err)
}

func TestAHistoryIsItsUsersAndBounded(t *testing.T) {
	h := New(3)
	built(h, 1, "a", nil)
	built(h, 2, "b", nil)
	if err := h.Update(1, &controlapi.UpdateBuildHistoryRequest{Ref: "a", Pinned: true}); err != nil {
		t.Error(err)
	}
	for _, ref := range []string{"c", "d", "e"} {
		built(h, 1, ref, nil)
	}
	if one, two := refs(t, h, 1), refs(t, h, 2); one != "[a d e]" || two != "[]" {
		t.Error(one, two)
	}
	if err := h.Update(2, &controlapi.UpdateBuildHistoryRequest{Ref: "d", Delete: true}); status.Code(err) != codes.NotFound {
		t.Error(err)
	}
}

func TestAListenerIsToldOfABuildAndItsEnd(t *testing.T) {
	h := New(3)
	ctx, cancel := context.WithCancel(context.Background())
	events := make(chan *controlapi.BuildHistoryEvent, 10)
	done := make(chan error)
	built(h, 1, "before", nil)
	go func() {
		done <- h.Listen(ctx, 1, &controlapi.BuildHistoryRequest{}, func(event *controlapi.BuildHistoryEvent) error {
			events <- event
			return nil
		})
	}()
	if first := <-events; first.Record.Ref != "before" || first.Type != controlapi.BuildHistoryEventType_COMPLETE {
		t.Errorf("%+v", first)
	}
	built(h, 2, "other", nil)
	built(h, 1, "ref", errors.New("it failed"))
	started, ended := <-events, <-events
	if started.Type != controlapi.BuildHistoryEventType_STARTED || started.Record.Ref != "ref" || started.Record.CompletedAt != nil {
		t.Errorf("%+v", started)
	}
	if ended.Type != controlapi.BuildHistoryEventType_COMPLETE || ended.Record.Error.GetMessage() != "it failed" {
		t.Errorf("%+v", ended)
	}
	cancel()
	if err := <-done; !errors.Is(err, context.Canceled) {
		t.Error(err)
	}
}

// listed are the records of a user.
func listed(t *testing.T, h *History, user uint32) []*controlapi.BuildHistoryRecord {
	t.Helper()
	var out []*controlapi.BuildHistoryRecord
	err := h.Listen(context.Background(), user, &controlapi.BuildHistoryRequest{EarlyExit: true}, func(event *controlapi.BuildHistoryEvent) error {
		out = append(out, event.Record)
		return nil
	})
	if err != nil {
		t.Error(err)
	}
	return out
}

func TestPinnedRecordsAreBounded(t *testing.T) {
	h := New(4)
	for i := 0; i < 20; i++ {
		ref := fmt.Sprint(i)
		built(h, 1, ref, nil)
		err := h.Update(1, &controlapi.UpdateBuildHistoryRequest{Ref: ref, Pinned: true})
		if want := codes.OK; i >= 2 {
			if want = codes.ResourceExhausted; status.Code(err) != want {
				t.Error(i, err)
			}
		} else if err != nil {
			t.Error(i, err)
		}
	}
	if got := refs(t, h, 1); got != "[0 1 18 19]" {
		t.Error(got)
	}
	// One that is pinned may be pinned again, and one that is no longer makes room.
	for _, pinned := range []bool{true, false} {
		if err := h.Update(1, &controlapi.UpdateBuildHistoryRequest{Ref: "0", Pinned: pinned}); err != nil {
			t.Error(err)
		}
	}
	if err := h.Update(1, &controlapi.UpdateBuildHistoryRequest{Ref: "19", Pinned: true}); err != nil {
		t.Error(err)
	}
}

func TestARecordThatIsPinnedWhileItsBuildRunsIsCompleted(t *testing.T) {
	h := New(3)
	r := h.Start(1, &controlapi.SolveRequest{Ref: "a"})
	if err := h.Update(1, &controlapi.UpdateBuildHistoryRequest{Ref: "a", Pinned: true}); err != nil {
		t.Error(err)
	}
	h.End(r, nil, 1, nil)
	if got := listed(t, h, 1); len(got) != 1 || !got[0].Pinned || got[0].CompletedAt == nil {
		t.Errorf("%+v", got)
	}
}

func TestTheRecordsOfBuildsThatRunAreNotForgotten(t *testing.T) {
	h := New(2)
	var running []*Record
	for i := 0; i < 5; i++ {
		running = append(running, h.Start(1, &controlapi.SolveRequest{Ref: fmt.Sprint(i)}))
	}
	if got := refs(t, h, 1); got != "[0 1 2 3 4]" {
		t.Error(got)
	}
	for _, r := range running {
		h.End(r, nil, 1, nil)
	}
	if got := refs(t, h, 1); got != "[3 4]" {
		t.Error(got)
	}
}

func TestWhatARecordHasIsBoundedAndUTF8(t *testing.T) {
	h := New(3)
	long := strings.Repeat("x", 10<<20)
	req := &controlapi.SolveRequest{
		Ref: "a", Frontend: long, FrontendAttrs: map[string]string{"a": "\xff", "b": long, "c": "1"},
		Exporters: []*controlapi.Exporter{{Type: "tar", Attrs: map[string]string{"b": long}}, {Type: long}},
	}
	h.End(h.Start(1, req), map[string]string{"a": "1", "z": long}, 1, errors.New(long))
	got := listed(t, h, 1)[0]
	if got.Size() > 100<<10 {
		t.Error(got.Size())
	}
	want := "map[a:\uFFFD llbmd:left-out:2 attributes: a record has at most 65536 bytes of them]"
	if fmt.Sprint(got.FrontendAttrs) != want {
		t.Error(got.FrontendAttrs)
	}
	if want := "map[a:1 llbmd:left-out:1 attributes: a record has at most 65536 bytes of them]"; fmt.Sprint(got.ExporterResponse) != want {
		t.Error(got.ExporterResponse)
	}
	if req.FrontendAttrs["b"] != long {
		t.Error("the request has changed")
	}
}

func TestAListenerThatIsSlowIsEnded(t *testing.T) {
	h := New(3)
	built(h, 1, "first", nil)
	listens, goOn, done := make(chan bool), make(chan bool), make(chan error)
	go func() {
		first := true
		done <- h.Listen(context.Background(), 1, &controlapi.BuildHistoryRequest{}, func(*controlapi.BuildHistoryEvent) error {
			if first {
				first = false
				listens <- true
				<-goOn
			}
			return nil
		})
	}()
	<-listens
	for range mostPending {
		built(h, 1, "x", nil)
	}
	close(goOn)
	if err := <-done; status.Code(err) != codes.ResourceExhausted {
		t.Error(err)
	}
}
