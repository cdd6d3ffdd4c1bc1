// Package solver solves definitions for builds: it puts together what runs and its inputs, lets llbm run it, and lets it be compared.
package solver

import (
	"bytes"
	"context"

	"github.com/moby/buildkit/solver/pb"
	spb "github.com/moby/buildkit/sourcepolicy/pb"
	"llbm/daemon/internal/builds"
	"llbm/daemon/internal/differences"
	"llbm/daemon/internal/inputs"
	"llbm/daemon/internal/kept"
	"llbm/daemon/internal/plan"
	"llbm/daemon/internal/progress"
	"llbm/daemon/internal/replacements"
	"llbm/daemon/internal/results"
	"llbm/daemon/internal/runs"
)

// Options are those of the daemon for all builds.
type Options struct {
	replacements.Replacer
	differences.Options
	Kept *kept.Folder // or nil
}

// A Solver solves definitions.
type Solver struct {
	replacements.Replacer
	comparer *differences.Comparer
	literal  bool
	kept     *kept.Folder
	workers  int
}

// New returns a solver, whose builds have some workers each, and of which at most some are compared at once.
func New(o Options, workers, atOnce int) *Solver {
	return &Solver{Replacer: o.Replacer, comparer: differences.New(o.Options, atOnce), literal: o.Literal, kept: o.Kept, workers: workers}
}

// IsEmpty is whether a definition is the client's Scratch(), which has no entries.
func IsEmpty(def *pb.Definition) bool { return def == nil || len(def.Def) == 0 }

// Lazily returns the result of a definition, which is not solved yet. It is solved as long as the build lasts, whoever waits.
func (s *Solver) Lazily(b *builds.Build, id string, def *pb.Definition, policies []*spb.Policy) *results.Lazy {
	return results.Lazily(id, def, func() (*results.Result, error) { return s.Solve(b.Context, b, def, policies) })
}

// Solve runs a definition of a build. What the result holds is given up when the build ends. Of a definition that llbm refuses its
// refusal is the error, whatever else is wrong.
func (s *Solver) Solve(ctx context.Context, b *builds.Build, sent *pb.Definition, policies []*spb.Policy) (*results.Result, error) {
	if IsEmpty(sent) {
		return results.Nothing(sent, b.Layers), nil
	}
	def, replaced, err := s.Replace(ctx, b, plan.Respelled(sent), sent, policies)
	if err != nil {
		return nil, err
	}
	defer replaced.Close()
	plan := plan.Begin(ctx, b.Shared.Program, sent, s.literal)
	defer plan.Close()
	result, err := s.work(plan, b, def, replaced)
	if err != nil {
		return nil, plan.Ended(err)
	}
	b.OnEnd(result.Contents.Close)
	result.Def = sent
	return result, nil
}

// work gathers the inputs of a definition, and runs it, or what BuildKit's rules make of it. It returns the result with its contents.
func (s *Solver) work(plan *plan.Plan, b *builds.Build, def *pb.Definition, replaced *replacements.Replaced) (*results.Result, error) {
	g, err := plan.Load(def)
	if err != nil {
		return nil, err
	}
	b.AddSteps(len(g.Vertices))
	p := progress.New(b, g)
	s.comparer.Note(g, p)
	replaced.Show(p)
	if err := s.comparer.Refuse(g); err != nil {
		return nil, err
	}
	in, g, err := inputs.Make(plan, g, p, replaced.Images, s.literal)
	if err != nil {
		return nil, err
	}
	defer in.Close()
	c := s.comparer.Compare(plan.Context, g, in, p)
	defer c.Stop()
	if err := c.Rewrite(); err != nil {
		return nil, err
	}
	result, err := s.run(plan, in, p, c)
	if err != nil {
		return nil, err
	}
	result.Contents = in.TakeTable()
	return result, nil
}

// run runs what the progress shows in a session of llbm, and returns the result's tree. What BuildKit would make is compared beside it.
func (s *Solver) run(plan *plan.Plan, in *inputs.Inputs, p *progress.Progress, c *differences.Comparison) (*results.Result, error) {
	result, record, err := s.session(plan, in, p, c)
	if s.kept != nil {
		solved := kept.Solved{Ref: p.Build.Ref, Record: record, Err: err}
		for name, write := range in.Kept() {
			solved.Sources = append(solved.Sources, kept.Source{Name: name, Write: write})
		}
		s.kept.Keep(solved, p.Graph.Def)
	}
	return result, err
}

// session runs what the progress shows, up to the end or to the first vertex that fails. It returns the record as far as it is kept.
func (s *Solver) session(plan *plan.Plan, in *inputs.Inputs, p *progress.Progress, c *differences.Comparison) (*results.Result, []byte, error) {
	one, err := runs.Start(plan.Context, p.Build.Shared.Program, p.Graph, in.Texts(p.Graph), s.workers, &p.Build.Written)
	if err != nil {
		return nil, nil, err
	}
	defer one.Close()
	err = one.Read()
	plan.Over()
	if err != nil {
		return nil, nil, plan.Refused(p.Graph, err)
	}
	record, err := s.events(one, p, c)
	if err != nil {
		return nil, record, err
	}
	result, err := one.Result(p)
	if err == nil {
		if err = c.End(one); err == nil {
			err = c.Refusal()
		}
	}
	return result, record, err
}

// events does the events that llbm chooses. If a vertex fails, it returns why.
func (s *Solver) events(one *runs.Session, p *progress.Progress, c *differences.Comparison) ([]byte, error) {
	var record bytes.Buffer
	for {
		event, more, err := one.Next()
		if err != nil {
			p.Stopped(err)
		}
		if err != nil || !more {
			return record.Bytes(), err
		}
		if s.kept != nil && record.Len() < kept.MostOfRecord {
			record.WriteString(event.Line + "\n")
		}
		if v, failed := p.Event(event); failed {
			err := p.Failed(v, one.Failure(p, v, event))
			if followed := c.End(one); followed != nil {
				err = followed
			}
			return record.Bytes(), err
		}
	}
}
