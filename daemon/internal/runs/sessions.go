// Package runs runs definitions in sessions of llbm, by the vertices of their graphs, and says why a vertex failed.
package runs

import (
	"context"
	"fmt"
	"io"
	"os"
	"sync/atomic"

	"google.golang.org/grpc/codes"
	"google.golang.org/grpc/status"
	"llbm/daemon/internal/graph"
	"llbm/daemon/internal/layers"
	"llbm/daemon/internal/machine"
	"llbm/daemon/internal/progress"
	"llbm/daemon/internal/results"
	"llbm/daemon/internal/tree"
)

// A Session is one of llbm over the definition of a graph. llbm has its own numbers of the vertices, which this file alone turns into
// those of the graph and back.
type Session struct {
	graph   *graph.Graph
	run     *machine.Run
	shown   *machine.Graph
	numbers []int // by vertex
	vertex  []int // by number
}

// Start starts a session of what runs, once one more process of the program may run. The caller has to close it.
func Start(
	ctx context.Context, program *machine.Program, g *graph.Graph, texts []machine.Source, workers int, written *atomic.Int64,
) (*Session, error) {
	file, err := entriesOf(g)
	if err != nil {
		return nil, err
	}
	defer file.Close()
	run, err := program.Step(ctx, file, texts, workers, written)
	if err != nil {
		return nil, err
	}
	return &Session{graph: g, run: run}, nil
}

// entriesOf returns a file with what llbm reads of a graph's definition.
func entriesOf(g *graph.Graph) (*os.File, error) {
	entries, err := graph.Entries(g.Def)
	if err != nil {
		return nil, err
	}
	file, err := machine.InMemory("definition")
	if err != nil {
		return nil, err
	}
	if _, err := file.Write(entries); err != nil {
		_ = file.Close()
		return nil, err
	}
	return file, nil
}

// Stop ends the session at once.
func (s *Session) Stop() { s.run.Stop() }

// Close ends the session. Nobody waits for the end of a process that has said all.
func (s *Session) Close() { go s.run.Stop() }

// Read waits until llbm has read the definition as the graph has it, or returns its refusal. It comes before all else.
func (s *Session) Read() error {
	shown, err := s.run.Graph()
	if err != nil {
		return err
	}
	g := s.graph
	s.shown, s.numbers = shown, make([]int, len(g.Vertices))
	if len(shown.Vertices) != len(g.Vertices) {
		return status.Errorf(codes.Internal, "llbm has %d vertices, not %d", len(shown.Vertices), len(g.Vertices))
	}
	byEntry := map[string]int{}
	for v := range g.Vertices {
		byEntry[g.Vertices[v].Entry.String()] = v
	}
	for number, one := range shown.Vertices {
		v, ok := byEntry[one.Digest]
		if !ok || len(one.Inputs) != len(g.Vertices[v].Inputs) {
			return status.Errorf(codes.Internal, "llbm has another vertex %d: %s", number, one.Digest)
		}
		delete(byEntry, one.Digest)
		s.vertex, s.numbers[v] = append(s.vertex, v), number
	}
	return nil
}

// Next does the next event, and returns it with a vertex of the graph, or false if there is none.
func (s *Session) Next() (machine.Event, bool, error) {
	event, more, err := s.run.Next()
	if !more || err != nil {
		return event, more, err
	}
	if event.Vertex >= len(s.vertex) {
		return event, false, fmt.Errorf("llbm: there is no vertex %d", event.Vertex)
	}
	event.Vertex = s.vertex[event.Vertex]
	return event, true, nil
}

// Aside writes the text of the tree of an output, and returns how many bytes it has, 0 if there is none yet.
func (s *Session) Aside(v, output, most int, to io.Writer) (int, error) {
	return s.run.Aside(s.numbers[v], output, most, to)
}

// Result returns the result once the session has ended, with the layers of BuildKit if they are asked for.
func (s *Session) Result(p *progress.Progress) (*results.Result, error) {
	t, err := s.run.Tree(s.shown.Result.Vertex, s.shown.Result.Output)
	if err != nil || !p.Build.Layers {
		return &results.Result{Tree: t}, err
	}
	found, why, err := layers.Of(s.graph.Sent, t, s.treeAt)
	if why != "" {
		p.Warn(s.graph.Result, "the image has one layer: "+why, nil)
	}
	return &results.Result{Tree: t, Layers: found}, err
}

// treeAt returns the tree of an output of a row of the definition that was sent, or the empty one where what ran has not the row.
func (s *Session) treeAt(row, output int) (tree.Tree, error) {
	v, ok := s.graph.Find(row)
	if !ok {
		return tree.Empty(), nil
	}
	return s.run.Tree(s.numbers[v], output)
}
