package builds

import (
	"context"
	"sync"
	"time"

	controlapi "github.com/moby/buildkit/api/services/control"
	digest "github.com/opencontainers/go-digest"
)

const (
	// mostOfEvents bounds the bytes of a build's progress; what comes later is left out, and one line says so.
	mostOfEvents = 32 << 20
	// mostOfMessage bounds what one message of Status has.
	mostOfMessage = 1 << 20
)

// Events are a build's progress, from its start. Any number of followers read them.
type Events struct {
	mu    sync.Mutex
	grew  chan struct{} // is closed when there are more, or no more will come
	all   []*controlapi.StatusResponse
	bytes int
	full  bool
	ended bool
	hold  func(int) error
}

// newEvents returns the progress of a build, which holds its bytes by a function.
func newEvents(hold func(int) error) *Events { return &Events{grew: make(chan struct{}), hold: hold} }

// Add adds an event.
func (e *Events) Add(event *controlapi.StatusResponse) {
	e.mu.Lock()
	defer e.mu.Unlock()
	if e.ended || e.full {
		return
	}
	size := event.Size()
	if e.bytes+size > mostOfEvents || e.hold(size) != nil {
		e.full = true
		e.all = append(e.all, cutOff(event))
	} else {
		e.bytes += size
		e.all = append(e.all, event)
	}
	e.wake()
}

// cutOff is the last event of a build with too many.
func cutOff(last *controlapi.StatusResponse) *controlapi.StatusResponse {
	var vertex digest.Digest
	for _, v := range last.Vertexes {
		vertex = v.Digest
	}
	for _, l := range last.Logs {
		vertex = l.Vertex
	}
	return &controlapi.StatusResponse{Logs: []*controlapi.VertexLog{{
		Vertex: vertex, Timestamp: time.Now(), Stream: 2, Msg: []byte("the build goes on, but its progress is too long to be shown\n"),
	}}}
}

func (e *Events) wake() {
	close(e.grew)
	e.grew = make(chan struct{})
}

// end ends the progress, and returns how many bytes it has.
func (e *Events) end() int {
	e.mu.Lock()
	defer e.mu.Unlock()
	e.ended = true
	e.wake()
	return e.bytes
}

// Follow sends all events, from the first, several as one message, until the build has ended or the context is done.
func (e *Events) Follow(ctx context.Context, send func(*controlapi.StatusResponse) error) error {
	for next := 0; ; {
		e.mu.Lock()
		events, ended, grew := e.all[next:], e.ended, e.grew
		e.mu.Unlock()
		if len(events) == 0 {
			if ended {
				return nil
			}
			select {
			case <-grew:
			case <-ctx.Done():
				return ctx.Err()
			}
			continue
		}
		message, n := join(events)
		if err := send(message); err != nil {
			return err
		}
		next += n
	}
}

// join makes one message of the first events, and returns of how many.
func join(events []*controlapi.StatusResponse) (*controlapi.StatusResponse, int) {
	message, size := &controlapi.StatusResponse{}, 0
	for i, event := range events {
		if size += event.Size(); i > 0 && size > mostOfMessage {
			return message, i
		}
		message.Vertexes = append(message.Vertexes, event.Vertexes...)
		message.Statuses = append(message.Statuses, event.Statuses...)
		message.Logs = append(message.Logs, event.Logs...)
		message.Warnings = append(message.Warnings, event.Warnings...)
	}
	return message, len(events)
}
