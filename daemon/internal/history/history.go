// Package history has records of the last builds, each its user's, and tells listeners of what happens to them.
package history

import (
	"context"
	"fmt"
	"slices"
	"sort"
	"sync"
	"time"

	spb "github.com/gogo/googleapis/google/rpc"
	controlapi "github.com/moby/buildkit/api/services/control"
	"github.com/moby/buildkit/util/grpcerrors"
	"google.golang.org/grpc/codes"
	"google.golang.org/grpc/status"
	"llbm/daemon/internal/messages"
)

const (
	// mostPending bounds the events that wait for a listener; one that is slower is given up.
	mostPending = 1024
	// mostOfAttributes bounds the bytes of a record's attributes: those of the build, of its exporters and of what these returned.
	mostOfAttributes = 64 << 10
	// overhead is what one more attribute or exporter counts besides its texts.
	overhead = 32
	// mostOfText bounds each other text of a record, in bytes.
	mostOfText = 8 << 10
	// leftOut is the attribute that says that others are missing.
	leftOut = "llbmd:left-out"
)

// A History has at most some records of builds that have ended, and forgets the oldest that is not pinned; at most half of them
// may be pinned. The builds that run have records too.
type History struct {
	most      int
	mu        sync.Mutex
	records   []*Record
	listeners map[*listener]bool
}

// A Record is that of one build. What listeners have seen of it does not change.
type Record struct {
	user uint32
	now  *controlapi.BuildHistoryRecord
}

type listener struct {
	user   uint32
	ref    string
	events chan *controlapi.BuildHistoryEvent
}

// New keeps at most some records.
func New(most int) *History { return &History{most: most, listeners: map[*listener]bool{}} }

// Start adds the record of a build that begins.
func (h *History) Start(user uint32, req *controlapi.SolveRequest) *Record {
	now, room := time.Now(), mostOfAttributes
	first := &controlapi.BuildHistoryRecord{
		Ref: req.Ref, Frontend: cut(req.Frontend), FrontendAttrs: bounded(req.FrontendAttrs, &room), CreatedAt: &now, Generation: 1,
	}
	for _, e := range req.Exporters {
		if room -= overhead + len(e.Type); room < 0 {
			break
		}
		first.Exporters = append(first.Exporters, &controlapi.Exporter{Type: messages.Text(e.Type), Attrs: bounded(e.Attrs, &room)})
	}
	h.mu.Lock()
	defer h.mu.Unlock()
	r := &Record{user, first}
	h.records = append(h.records, r)
	h.tell(r, controlapi.BuildHistoryEventType_STARTED)
	return r
}

// bounded returns attributes of which as many are left out as have no room, from the last name on; one more says how many these are.
func bounded(attributes map[string]string, room *int) map[string]string {
	if attributes == nil {
		return nil
	}
	out, names := map[string]string{}, make([]string, 0, len(attributes))
	for name := range attributes {
		names = append(names, name)
	}
	sort.Strings(names)
	for i, name := range names {
		if *room -= overhead + len(name) + len(attributes[name]); *room < 0 {
			out[leftOut] = fmt.Sprintf("%d attributes: a record has at most %d bytes of them", len(names)-i, mostOfAttributes)
			break
		}
		out[messages.Text(name)] = messages.Text(attributes[name])
	}
	return out
}

// cut returns a text of UTF-8 that is not too long.
func cut(text string) string {
	if len(text) > mostOfText {
		text = text[:mostOfText] + ".."
	}
	return messages.Text(text)
}

// End completes the record of a build.
func (h *History) End(r *Record, response map[string]string, steps int, err error) {
	h.mu.Lock()
	defer h.mu.Unlock()
	now, room, done := time.Now(), mostOfAttributes, *r.now
	done.CompletedAt, done.NumTotalSteps, done.NumCompletedSteps = &now, int32(steps), int32(steps)
	done.ExporterResponse = bounded(response, &room)
	done.Generation++
	if err != nil {
		done.Error = &spb.Status{Code: int32(grpcerrors.Code(err)), Message: cut(messages.Of(err))}
	}
	r.now = &done
	h.tell(r, controlapi.BuildHistoryEventType_COMPLETE)
	h.shorten()
}

// shorten forgets the oldest builds that have ended and are not pinned, as long as there are too many that have ended.
func (h *History) shorten() {
	ended := 0
	for _, r := range h.records {
		if r.now.CompletedAt != nil {
			ended++
		}
	}
	for i := 0; ended > h.most && i < len(h.records); {
		if r := h.records[i].now; r.Pinned || r.CompletedAt == nil {
			i++
			continue
		}
		h.forget(i)
		ended--
	}
}

// forget drops a record.
func (h *History) forget(i int) {
	r := h.records[i]
	h.records = append(h.records[:i:i], h.records[i+1:]...)
	h.tell(r, controlapi.BuildHistoryEventType_DELETED)
}

func (h *History) tell(r *Record, kind controlapi.BuildHistoryEventType) {
	for l := range h.listeners {
		if l.user != r.user || l.ref != "" && l.ref != r.now.Ref {
			continue
		}
		select {
		case l.events <- &controlapi.BuildHistoryEvent{Type: kind, Record: r.now}:
		default:
			delete(h.listeners, l)
			close(l.events)
		}
	}
}

// Update pins a record, or deletes it.
func (h *History) Update(user uint32, req *controlapi.UpdateBuildHistoryRequest) error {
	h.mu.Lock()
	defer h.mu.Unlock()
	i := slices.IndexFunc(h.records, func(r *Record) bool { return r.user == user && r.now.Ref == req.Ref })
	switch {
	case i < 0:
		return status.Errorf(codes.NotFound, "no build %.80q is in the history", req.Ref)
	case req.Delete:
		h.forget(i)
		return nil
	case req.Pinned && !h.records[i].now.Pinned && h.pinned() >= h.most/2:
		return status.Errorf(codes.ResourceExhausted, "%d builds of the history are pinned, and no more may be", h.most/2)
	}
	changed := *h.records[i].now
	changed.Pinned = req.Pinned
	changed.Generation++
	h.records[i].now = &changed
	h.tell(h.records[i], controlapi.BuildHistoryEventType_COMPLETE)
	return nil
}

func (h *History) pinned() int {
	n := 0
	for _, r := range h.records {
		if r.now.Pinned {
			n++
		}
	}
	return n
}

// begin returns the records that there are, and from then on lets a listener hear, unless the request asks for an early exit.
func (h *History) begin(l *listener, req *controlapi.BuildHistoryRequest) (now []*controlapi.BuildHistoryEvent) {
	h.mu.Lock()
	defer h.mu.Unlock()
	for _, r := range h.records {
		if r.user != l.user || req.Ref != "" && r.now.Ref != req.Ref || req.ActiveOnly && r.now.CompletedAt != nil {
			continue
		}
		kind := controlapi.BuildHistoryEventType_COMPLETE
		if r.now.CompletedAt == nil {
			kind = controlapi.BuildHistoryEventType_STARTED
		}
		now = append(now, &controlapi.BuildHistoryEvent{Type: kind, Record: r.now})
	}
	if !req.EarlyExit {
		h.listeners[l] = true
	}
	return now
}

// Listen sends the records that there are and then, unless the request asks for an early exit, what happens to them.
func (h *History) Listen(ctx context.Context, user uint32, req *controlapi.BuildHistoryRequest, send func(*controlapi.BuildHistoryEvent) error) error {
	l := &listener{user: user, ref: req.Ref, events: make(chan *controlapi.BuildHistoryEvent, mostPending)}
	now := h.begin(l, req)
	defer func() {
		h.mu.Lock()
		delete(h.listeners, l)
		h.mu.Unlock()
	}()
	for _, event := range now {
		if err := send(event); err != nil {
			return err
		}
	}
	for !req.EarlyExit {
		select {
		case event, ok := <-l.events:
			if !ok {
				return status.Errorf(codes.ResourceExhausted, "the listener is more than %d events behind", mostPending)
			}
			if err := send(event); err != nil {
				return err
			}
		case <-ctx.Done():
			return ctx.Err()
		}
	}
	return nil
}
