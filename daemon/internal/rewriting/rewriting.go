// Package rewriting rewrites the ops of a definition so that llbm makes of them what BuildKit makes of the definition as it was
// sent. What does not depend on trees is always rewritten; where the trees are known that an op works on, it is rewritten so that
// its result is BuildKit's. What BuildKit itself makes of the definition stays the same.
package rewriting

import (
	"context"
	"slices"

	"github.com/moby/buildkit/solver/pb"
	digest "github.com/opencontainers/go-digest"
	"llbm/daemon/internal/graph"
	"llbm/daemon/internal/rules"
)

// Trees has the trees that are known before anything runs.
type Trees interface {
	// Source returns the tree of a local source, as llbm gets it and as BuildKit has it; nil if it is not known.
	Source(ctx context.Context, source *graph.Vertex) (here, there *rules.Node, err error)
}

// Rows are the entries that were rewritten, by their numbers. A row that is not there is as it was sent, but for the digests of
// its inputs.
type Rows map[int]*Row

// A writer rewrites the vertices of a graph.
type writer struct {
	graph    *graph.Graph
	given    Trees // or nil
	treeless bool  // whether no tree is looked at
	most     int   // how many actions an op has at most
	states   []state
	ops      map[int]*pb.Op
	rows     Rows
}

// Definition rewrites a definition, as far as that is possible without trees, or with those that are given. A definition that
// llbm refuses is an error. One with bytes that BuildKit's library would not write stays as it is, since its fields may not
// all be known. An op may have more actions than llbm takes: Divide makes several of it.
func Definition(ctx context.Context, def *pb.Definition, given Trees) (*pb.Definition, Rows, error) {
	return rewrite(ctx, def, given, false)
}

// Treeless does the same as far as that is possible without looking at any tree, also at none that its ops make.
func Treeless(ctx context.Context, def *pb.Definition) (*pb.Definition, Rows, error) {
	return rewrite(ctx, def, nil, true)
}

func rewrite(ctx context.Context, def *pb.Definition, given Trees, treeless bool) (*pb.Definition, Rows, error) {
	g, err := graph.Read(def, def)
	if err != nil || !g.Canonical {
		return def, nil, err
	}
	w, err := written(ctx, def, &writer{graph: g, given: given, treeless: treeless, most: mostActions})
	if err != nil {
		return nil, nil, err
	}
	new, err := graph.Rewrite(def, func(row int, op *pb.Op) (bool, error) {
		made, ok := w.ops[row]
		if ok {
			op.Op, op.Inputs = made.Op, made.Inputs
		}
		return ok, nil
	})
	return new, w.rows, err
}

// Bytes does the same in the bytes of a definition: what is not rewritten stays as it is, also what BuildKit's library would not
// write. It returns the rows whose inputs got other digests, too.
func Bytes(ctx context.Context, data []byte, given Trees) (new []byte, rows Rows, linked []int, err error) {
	def, g, err := graph.ReadBytes(data)
	if err != nil {
		return nil, nil, nil, err
	}
	w, err := written(ctx, def, &writer{graph: g, given: given, most: mostRecords})
	if err != nil {
		return nil, nil, nil, err
	}
	changes := map[int]graph.Change{}
	for row, op := range w.ops {
		changes[row] = graph.Change{Op: op, Actions: w.rows[row].Actions}
	}
	new, linked, err = graph.RewriteBytes(data, changes)
	return new, w.rows, linked, err
}

// written rewrites the vertices of a graph.
func written(ctx context.Context, def *pb.Definition, w *writer) (*writer, error) {
	w.states, w.ops, w.rows = make([]state, len(w.graph.Vertices)), map[int]*pb.Op{}, Rows{}
	for v := range w.graph.Vertices {
		if err := ctx.Err(); err != nil {
			return nil, err
		}
		if err := w.vertex(ctx, v); err != nil {
			return nil, err
		}
	}
	w.terminal(def)
	return w, nil
}

// set takes the new op of a row.
func (w *writer) set(row int, op *pb.Op, how Row) {
	w.ops[row], w.rows[row] = op, &how
}

// terminal drops inputs of the terminal that name no entry, but for the first one, which is the result. BuildKit's daemon dies of
// them.
func (w *writer) terminal(def *pb.Definition) {
	known := map[digest.Digest]bool{}
	for _, entry := range def.Def {
		known[digest.FromBytes(entry)] = true
	}
	last := len(def.Def) - 1
	op := &pb.Op{}
	if op.Unmarshal(def.Def[last]) != nil || len(op.Inputs) == 0 {
		return
	}
	further := slices.DeleteFunc(slices.Clone(op.Inputs[1:]), func(one *pb.Input) bool { return !known[one.Digest] })
	if len(further) < len(op.Inputs)-1 {
		op.Inputs = append(op.Inputs[:1:1], further...)
		w.set(last, op, Row{Changes: []string{"inputs that name no entry are dropped"}})
	}
}

func (w *writer) vertex(ctx context.Context, v int) error {
	op := w.graph.Vertices[v].Op
	switch {
	case op.GetSource() != nil:
		return w.source(ctx, v)
	case op.GetFile() != nil:
		return w.file(ctx, v)
	case op.GetMerge() != nil:
		return w.merge(ctx, v)
	case op.GetExec() != nil:
		w.exec(v)
	}
	return nil
}

// source drops the inputs of a source, of which BuildKit's daemon dies.
func (w *writer) source(ctx context.Context, v int) error {
	it := &w.graph.Vertices[v]
	if len(it.Op.Inputs) > 0 {
		op := *it.Op
		op.Inputs = nil
		w.set(it.Row, &op, Row{Changes: []string{"the inputs of a source are dropped"}})
	}
	if w.given == nil {
		return nil
	}
	here, there, err := w.given.Source(ctx, it)
	if err == nil && here != nil && there != nil {
		ref := rules.Based(there)
		w.states[v] = state{outputs: []trees{treesOf(here, ref, ref)}}
	}
	return err
}

// isTaken is whether the actions of a file op can be rewritten, and it has an output. Names of owners are looked up in an input, or
// in what the action works on.
func isTaken(op *pb.Op) bool {
	hasOutput := false
	for _, action := range op.GetFile().GetActions() {
		hasOutput = hasOutput || action.Output != noOutput
		if action.Action == nil {
			return false
		}
		for _, name := range rules.NamesOf(action) {
			if int(name.Input) >= len(op.Inputs) && name.Input != action.Input {
				return false
			}
		}
	}
	return hasOutput
}

// file rewrites a file op: by its trees where they are known, and else by those of them that are.
func (w *writer) file(ctx context.Context, v int) error {
	it := &w.graph.Vertices[v]
	if !isTaken(it.Op) {
		return nil
	}
	if inputs, ok := w.inputs(v); ok {
		if done, err := w.fileByTrees(ctx, v, inputs); done || err != nil {
			return err
		}
	}
	f := w.fileOp(it.Op)
	f.known = w.someInputs(v)
	f.treeless(ctx)
	if err := ctx.Err(); err != nil || f.isBeyond {
		return err
	}
	w.setFile(v, f)
	if inputs, ok := w.inputs(v); ok {
		return w.follow(ctx, v, inputs)
	}
	return nil
}

// setFile takes the new actions of a file op, if something was changed, and if they are not too many.
func (w *writer) setFile(v int, f *fileOp) {
	it := &w.graph.Vertices[v]
	if len(f.Changes) == 0 && isSame(f.sent, f.new) || len(f.new) > w.most {
		return
	}
	op := *it.Op
	op.Op = &pb.Op_File{File: &pb.FileOp{Actions: f.new}}
	w.set(it.Row, &op, f.Row)
}

func isSame(sent, new []*pb.FileAction) bool {
	return slices.EqualFunc(sent, new, func(a, b *pb.FileAction) bool {
		return a.Input == b.Input && a.SecondaryInput == b.SecondaryInput && a.Output == b.Output
	})
}
