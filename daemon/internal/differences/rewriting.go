package differences

import (
	"slices"

	"github.com/moby/buildkit/solver/pb"
	"google.golang.org/grpc/codes"
	"google.golang.org/grpc/status"
	"llbm/daemon/internal/graph"
	"llbm/daemon/internal/progress"
	"llbm/daemon/internal/rewriting"
)

// Note shows a warning for each field of the entries that were sent which has an effect in BuildKit alone.
func (d *Comparer) Note(g *graph.Graph, p *progress.Progress) {
	for v := range g.Vertices {
		for _, note := range d.Notes.Of(g.Sent.Def[g.Vertices[v].Row], p.Build.Shared.Platform) {
			p.Note(v, note.String(), nil)
		}
	}
}

// rewrites is whether ops are rewritten on which BuildKit and llbm do not agree.
func (d *Comparer) rewrites(g *graph.Graph, p *progress.Progress) bool {
	if !d.Literal && !g.Canonical {
		p.Warn(g.Result, "the definition has a field that BuildKit's library does not know, or is longer than 1 MiB and written in another way, "+
			"so it runs by the rules of llbm alone", nil)
	}
	return !d.Literal && g.Canonical
}

// Rewrite gives the progress the graph that is run. If the comparison rewrote the definition, that is what it made by the trees of the
// sources. If it could not, it is rewritten as far as it does not depend on trees.
func (c *Comparison) Rewrite() error {
	if !c.rewrites {
		return nil
	}
	made, rows, parts, err := c.definition()
	if err != nil || made == c.g.Def {
		return err
	}
	g, err := graph.Read(made, c.g.Sent, slices.Concat(c.g.Parts, parts)...)
	if err != nil {
		return status.Errorf(codes.Internal, "%v", err)
	}
	c.p.ChangeRows(g, rows)
	return nil
}

// definition returns what the comparison rewrote, or what can be rewritten without it, and of which row each further entry is a part.
func (c *Comparison) definition() (*pb.Definition, rewriting.Rows, []int, error) {
	def := c.g.Def
	run := c.rewritten()
	if run == nil {
		if err := c.ctx.Err(); err != nil {
			return nil, nil, nil, status.FromContextError(err).Err()
		}
		made, rows, err := rewriting.Treeless(c.ctx, def)
		if err != nil {
			return nil, nil, nil, err
		}
		made, parts, _, err := rewriting.Divide(made, rows)
		return made, rows, parts, err
	}
	if len(run.Rows) == 0 {
		return def, nil, nil, nil
	}
	made := &pb.Definition{}
	if err := made.Unmarshal(run.Definition); err != nil || len(made.Def) != len(def.Def)+len(run.Parts) {
		return nil, nil, nil, status.Errorf(codes.Internal, "the rewritten definition can't be read: %v", err)
	}
	return made, run.Rows, run.Parts, nil
}
