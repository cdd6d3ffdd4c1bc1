// Package progress shows the events of a run as what displays show of its vertices: beginnings and ends, lines, bars and warnings.
package progress

import (
	"fmt"
	"strings"
	"sync"
	"time"

	controlapi "github.com/moby/buildkit/api/services/control"
	digest "github.com/opencontainers/go-digest"
	"llbm/daemon/internal/builds"
	"llbm/daemon/internal/graph"
	"llbm/daemon/internal/machine"
	"llbm/daemon/internal/messages"
	"llbm/daemon/internal/rewriting"
	"llbm/daemon/internal/standins"
)

// often is how often a transfer's progress is shown.
const often = 100 * time.Millisecond

// A Progress turns the events of a run into what displays show of its vertices.
type Progress struct {
	Build    *builds.Build
	Graph    *graph.Graph // of the definition as it runs, as far as it has been rewritten
	shown    *builds.Shown
	mu       sync.Mutex
	begun    []*time.Time
	running  map[int]int    // the vertex of each worker
	rows     rewriting.Rows // the rows that were rewritten
	unpacked map[int][]int  // the actions of rows that were sent, for rows that unpack archives
}

// New shows the vertices of a graph, which have not begun.
func New(b *builds.Build, g *graph.Graph) *Progress {
	p := &Progress{Build: b, Graph: g, shown: b.Shown, begun: make([]*time.Time, len(g.Vertices)), running: map[int]int{}}
	event := &controlapi.StatusResponse{}
	for v := range g.Vertices {
		if !p.shown.Has(g.Vertices[v].Digest) {
			event.Vertexes = append(event.Vertexes, p.vertex(v))
		}
	}
	b.Events.Add(event)
	return p
}

// Change takes the graph of the definition as it was rewritten.
func (p *Progress) Change(g *graph.Graph) {
	if len(g.Vertices) != len(p.begun) {
		p.begun = make([]*time.Time, len(g.Vertices))
	}
	p.Graph = g
}

// ChangeRows takes the graph of a definition of which some rows were rewritten by trees.
func (p *Progress) ChangeRows(g *graph.Graph, rows rewriting.Rows) {
	p.Change(g)
	p.rows = rows
}

// ChangeUnpacked takes the graph of a definition with what archives unpack to, and which action that was sent each of a row's actions is
// of.
func (p *Progress) ChangeUnpacked(g *graph.Graph, actions map[int][]int) {
	p.Change(g)
	p.unpacked = actions
}

// Action returns the number that an action of a vertex had before the definition was rewritten.
func (p *Progress) Action(v, place int) int {
	row, at := p.rows[p.Graph.Vertices[v].Row], p.Graph.Vertices[v].Before+place
	if row != nil && at < len(row.Actions) {
		place = row.Actions[at]
	}
	return p.SentAction(p.Graph.Vertices[v].Row, place)
}

// SentAction returns the number that an action of a row had before what archives unpack to was put into its op.
func (p *Progress) SentAction(row, place int) int {
	if actions := p.unpacked[row]; place >= 0 && place < len(actions) {
		return actions[place]
	}
	return place
}

// Fails returns why BuildKit fails at a vertex that was rewritten to one that fails here too, or nothing.
func (p *Progress) Fails(v int) string {
	if row := p.rows[p.Graph.Vertices[v].Row]; row != nil {
		return row.Fails
	}
	return ""
}

func (p *Progress) vertex(v int) *controlapi.Vertex {
	it := &p.Graph.Vertices[v]
	return &controlapi.Vertex{Digest: it.Digest, Inputs: it.Needs, Name: messages.Text(it.Name), Started: p.begun[v], ProgressGroup: it.Group}
}

func (p *Progress) start(v int) {
	if p.begun[v] == nil {
		now := time.Now()
		p.begun[v] = &now
		if !p.shown.Has(p.Graph.Vertices[v].Digest) {
			p.Build.Events.Add(&controlapi.StatusResponse{Vertexes: []*controlapi.Vertex{p.vertex(v)}})
		}
	}
}

// Event shows an event of the record, and returns the vertex that failed with it, if one did.
func (p *Progress) Event(e machine.Event) (int, bool) {
	p.mu.Lock()
	defer p.mu.Unlock()
	v := p.running[e.Worker]
	switch e.Kind {
	case machine.Claim:
		p.running[e.Worker] = e.Vertex
		p.start(p.Graph.Vertices[e.Vertex].Whole)
	case machine.Step:
		if e.Ran != nil {
			p.command(v, e.Ran)
		}
	case machine.Settle:
		if e.Failed {
			return v, true
		}
		p.settled(v)
		delete(p.running, e.Worker)
	}
	return 0, false
}

// command shows a command that ran, with its status if it is not 0.
func (p *Progress) command(v int, ran *machine.Ran) {
	calls := standins.Calls(p.Graph.Vertices[v].Op.GetExec())
	if ran.Command >= len(calls) {
		return
	}
	line, stream := strings.Join(calls[ran.Command], " "), int64(1)
	if ran.Status != 0 {
		line, stream = fmt.Sprintf("%s: status %d", line, ran.Status), 2
	}
	p.Log(v, stream, line)
}

// Log shows a line of a vertex, on its standard output (1) or its standard error (2).
func (p *Progress) Log(v int, stream int64, line string) {
	if p.shown.Has(p.Graph.Vertices[v].Digest) {
		return
	}
	p.Build.Events.Add(&controlapi.StatusResponse{Logs: []*controlapi.VertexLog{{
		Vertex: p.Graph.Vertices[v].Digest, Timestamp: time.Now(), Stream: stream, Msg: []byte(messages.Text(line) + "\n"),
	}}})
}

// settled shows that a vertex is done. Of parts of an op the last one shows it.
func (p *Progress) settled(v int) {
	d := p.Graph.Vertices[v].Digest
	if p.shown.Has(d) || p.Graph.Vertices[v].Whole != v {
		return
	}
	now, it := time.Now(), p.vertex(v)
	it.Completed = &now
	p.Build.Events.Add(&controlapi.StatusResponse{Vertexes: []*controlapi.Vertex{it}})
	p.shown.Add(d)
}

// Failed shows a vertex as failed, and adds to the error which vertex it is.
func (p *Progress) Failed(v int, err error) error {
	p.mu.Lock()
	defer p.mu.Unlock()
	v = p.Graph.Vertices[v].Whole
	p.start(v)
	now, it := time.Now(), p.vertex(v)
	it.Completed, it.Error = &now, messages.Of(err)
	p.Build.Events.Add(&controlapi.StatusResponse{Vertexes: []*controlapi.Vertex{it}})
	return p.Graph.Wrap(v, err)
}

// Stopped shows the vertices as failed that ran when the run broke off.
func (p *Progress) Stopped(err error) {
	p.mu.Lock()
	running := p.running
	p.running = map[int]int{}
	p.mu.Unlock()
	for _, v := range running {
		_ = p.Failed(v, err)
	}
}

// Warn shows a warning of a vertex.
func (p *Progress) Warn(v int, short string, details []string) {
	p.WarnOf(p.Graph.Vertices[v].Digest, short, details)
}

// WarnOf shows a warning of the vertex that clients know by a digest.
func (p *Progress) WarnOf(d digest.Digest, short string, details []string) {
	warning := &controlapi.VertexWarning{Vertex: d, Level: 1, Short: []byte(messages.Text(short))}
	for _, detail := range details {
		warning.Detail = append(warning.Detail, []byte(messages.Text(detail)))
	}
	p.Build.Events.Add(&controlapi.StatusResponse{Warnings: []*controlapi.VertexWarning{warning}})
}

// Note shows a text as a warning of a vertex, once in a build.
func (p *Progress) Note(v int, text string, details []string) {
	p.NoteOf(p.Graph.Vertices[v].Digest, text, details)
}

// OncePerBuild is whether a text has not been shown in the build yet. From now on it has.
func (p *Progress) OncePerBuild(text string) bool { return p.shown.Note(text) }

// NoteOf shows a text as a warning of the vertex that clients know by a digest, once in a build.
func (p *Progress) NoteOf(d digest.Digest, text string, details []string) {
	if p.shown.Note(d.String() + " " + text) {
		p.WarnOf(d, text, details)
	}
}

// A Bar shows how far a transfer is.
type Bar struct {
	p     *Progress
	v     int
	name  string
	begun time.Time
	last  time.Time
}

// Bar begins a bar of a vertex, which begins with it.
func (p *Progress) Bar(v int, name string) *Bar {
	p.mu.Lock()
	defer p.mu.Unlock()
	p.start(v)
	return &Bar{p: p, v: v, name: name, begun: *p.begun[v]}
}

// At shows that a transfer has come to some bytes, unless that was shown a moment ago.
func (b *Bar) At(n int64) {
	if time.Since(b.last) >= often {
		b.show(n, nil)
	}
}

// Done shows that a transfer is complete.
func (b *Bar) Done(n int64) {
	now := time.Now()
	b.show(n, &now)
}

func (b *Bar) show(n int64, completed *time.Time) {
	b.last = time.Now()
	b.p.Build.Events.Add(&controlapi.StatusResponse{Statuses: []*controlapi.VertexStatus{{
		ID: messages.Text(b.name), Vertex: b.p.Graph.Vertices[b.v].Digest, Current: n, Timestamp: b.last, Started: &b.begun, Completed: completed,
	}}})
}
