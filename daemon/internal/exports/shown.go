package exports

import (
	"context"
	"crypto/rand"
	"errors"
	"strings"
	"time"

	controlapi "github.com/moby/buildkit/api/services/control"
	digest "github.com/opencontainers/go-digest"
	"google.golang.org/grpc/codes"
	"google.golang.org/grpc/status"
	"llbm/daemon/internal/builds"
	"llbm/daemon/internal/messages"
)

// often is how often the progress of an export is shown.
const often = 100 * time.Millisecond

var errIdle = errors.New("nothing was taken")

// Answer are the parts of the metadata that clients are told of.
func (r *Results) Answer() map[string]string {
	out := map[string]string{}
	for k, v := range r.Metadata {
		if strings.HasPrefix(k, "frontend.") {
			out[messages.Text(k)] = messages.Text(string(v))
		}
	}
	return out
}

// Show exports results to the client of a build, and shows this as a vertex. A client that takes nothing for an idle time is given up. It
// returns what the client is told of the results.
func (e *Exporter) Show(ctx context.Context, b *builds.Build, all *Results, idle time.Duration) (map[string]string, error) {
	caller, err := b.Shared.Sessions.Get(ctx, b.User, b.Session)
	if err != nil {
		return nil, err
	}
	started := time.Now()
	vertex := controlapi.Vertex{Digest: digest.FromString(rand.Text()), Name: e.Name(), Started: &started}
	show := func(completed *time.Time, err error) {
		v := vertex
		if v.Completed = completed; err != nil {
			v.Error = messages.Of(err)
		}
		b.Events.Add(&controlapi.StatusResponse{Vertexes: []*controlapi.Vertex{&v}})
	}
	show(nil, nil)
	ctx, cancel := context.WithCancelCause(ctx)
	defer cancel(nil)
	timer := time.AfterFunc(idle, func() { cancel(errIdle) })
	defer timer.Stop()
	moved := func() { timer.Reset(idle) }
	warn := func(short string) {
		b.Events.Add(&controlapi.StatusResponse{Warnings: []*controlapi.VertexWarning{{Vertex: vertex.Digest, Level: 1, Short: []byte(short)}}})
	}
	var last time.Time
	told, err := e.Export(ctx, caller, all, Watch{Moved: moved, Warn: warn, Sent: func(n int64) {
		moved()
		if now := time.Now(); now.Sub(last) > often {
			last = now
			b.Events.Add(&controlapi.StatusResponse{Statuses: []*controlapi.VertexStatus{{
				ID: "copying files", Vertex: vertex.Digest, Current: n, Timestamp: now, Started: &started,
			}}})
		}
	}})
	if errors.Is(context.Cause(ctx), errIdle) {
		err = status.Errorf(codes.DeadlineExceeded, "%s: the client took nothing for %s", e.Name(), idle)
	}
	ended := time.Now()
	show(&ended, err)
	return told, err
}
