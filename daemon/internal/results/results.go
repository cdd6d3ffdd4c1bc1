// Package results has what definitions are solved to, and results that are solved when they are first used.
package results

import (
	"context"
	"log"
	"runtime/debug"
	"sync"

	"github.com/moby/buildkit/solver/pb"
	"google.golang.org/grpc/codes"
	"google.golang.org/grpc/status"
	"llbm/daemon/internal/contents"
	"llbm/daemon/internal/tree"
)

// A Result is a tree, with the table of the contents that its tokens stand for.
type Result struct {
	Tree     tree.Tree
	Contents *contents.Table
	Def      *pb.Definition
	Layers   []Layer // of an image, if they were asked for
}

// A Layer is what an op changed: the op's name, and the changes.
type Layer struct {
	Name    string
	Changes []tree.Change
}

// Ops returns how many ops of the definition can change files: those that are no sources and no merges.
func (r *Result) Ops() int {
	count := 0
	if r.Def == nil {
		return count
	}
	for _, entry := range r.Def.Def {
		var op pb.Op
		if op.Unmarshal(entry) == nil && (op.GetFile() != nil || op.GetExec() != nil) {
			count++
		}
	}
	return count
}

// A Lazy is a result of a build that is solved at its first use, and at most once.
type Lazy struct {
	ID  string
	Def *pb.Definition

	solve  func() (*Result, error)
	once   sync.Once
	done   chan struct{}
	result *Result
	err    error
}

// Lazily returns the result of a definition, which a function solves.
func Lazily(id string, def *pb.Definition, solve func() (*Result, error)) *Lazy {
	return &Lazy{ID: id, Def: def, solve: solve, done: make(chan struct{})}
}

// Nothing is the result of a definition without entries, with the layers of BuildKit, which are none, if they are asked for.
func Nothing(def *pb.Definition, isLayered bool) *Result {
	nothing := &Result{Tree: tree.Empty(), Def: def}
	if isLayered {
		nothing.Layers = []Layer{}
	}
	return nothing
}

// Empty is the same, as the result of no definition.
func Empty(isLayered bool) *Lazy {
	return Lazily("", nil, func() (*Result, error) { return Nothing(nil, isLayered), nil })
}

// Result solves the definition, if this was not done before, and returns the tree. Others may wait for it too, so it is solved
// even if the context of this call ends.
func (l *Lazy) Result(ctx context.Context) (*Result, error) {
	l.once.Do(func() {
		go func() {
			defer close(l.done)
			defer l.recovered()
			l.result, l.err = l.solve()
		}()
	})
	select {
	case <-l.done:
		return l.result, l.err
	case <-ctx.Done():
		return nil, status.FromContextError(ctx.Err()).Err()
	}
}

// recovered turns a panic of the solver into the result's error.
func (l *Lazy) recovered() {
	if r := recover(); r != nil {
		log.Printf("llbmd: solving %s: %v\n%s", l.ID, r, debug.Stack())
		l.err = status.Errorf(codes.Internal, "solving: %v", r)
	}
}
