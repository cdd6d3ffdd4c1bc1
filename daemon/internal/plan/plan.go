// Package plan asks llbm, before a definition runs, how the contents of its sources have to be given, or why it is refused.
package plan

import (
	"context"
	"slices"

	"github.com/moby/buildkit/solver/pb"
	digest "github.com/opencontainers/go-digest"
	"google.golang.org/grpc/codes"
	"google.golang.org/grpc/status"
	"llbm/daemon/internal/graph"
	"llbm/daemon/internal/machine"
	"llbm/daemon/internal/rules"
)

// mostUnseen bounds the bytes of a definition that is worked on before llbm has read it. The daemon's own reading of one has fewer
// bounds than llbm's.
const mostUnseen = 1 << 20

// A Plan is what llbm says of a definition before it runs, if something depends on it: how the contents of its sources have to be
// given, or a refusal, which ends the context of the work.
type Plan struct {
	Context context.Context // of the work
	program *machine.Program
	literal bool
	sent    *pb.Definition
	shown   *pb.Definition // without what llbm does not take and the rewriting may take away
	cancel  context.CancelFunc
	done    chan struct{} // is closed once llbm has ended, or nil if it was not asked
	plan    *machine.Plan
	err     error
	isOver  bool // whether a session has read what runs
}

// Begin begins the work on what a client sent. A literal definition is not rewritten. The caller has to close the plan.
func Begin(ctx context.Context, program *machine.Program, sent *pb.Definition, literal bool) *Plan {
	p := &Plan{program: program, sent: sent, literal: literal}
	p.Context, p.cancel = context.WithCancel(ctx)
	return p
}

// Close ends the work.
func (p *Plan) Close() { p.cancel() }

// Respelled returns a definition as BuildKit's library would write it. One that llbm has to read before it is read here stays as it is.
func Respelled(def *pb.Definition) *pb.Definition {
	size := 0
	for _, entry := range def.Def {
		size += len(entry)
	}
	if size > mostUnseen {
		return def
	}
	return graph.Respelled(def)
}

// Load reads the graph of a definition, and asks llbm for the plan if there may be something to plan. A long definition is read by llbm
// before.
func (p *Plan) Load(def *pb.Definition) (*graph.Graph, error) {
	p.shown = def
	if made, err := within(def); err == nil && !p.literal {
		p.shown = made
	}
	if (&pb.Definition{Def: def.Def}).Size() > mostUnseen {
		p.ask()
		if err := p.Wait(); err != nil {
			return nil, err
		}
	}
	g, err := graph.Read(def, p.sent)
	if err != nil {
		return nil, status.Errorf(codes.Internal, "%v", err)
	}
	if isPlanned(g) {
		p.ask()
	}
	return g, nil
}

// isPlanned is whether it may depend on the ops how contents have to be given. It does not unless there is a source, and an execution,
// which may make a digest, or a file that is written, which may have the byte 255.
func isPlanned(g *graph.Graph) bool {
	hasSource, hasContents := false, false
	for v := range g.Vertices {
		op := g.Vertices[v].Op
		hasSource = hasSource || op.GetSource() != nil
		hasContents = hasContents || op.GetExec() != nil || slices.ContainsFunc(op.GetFile().GetActions(), func(action *pb.FileAction) bool {
			return action.GetMkfile() != nil
		})
	}
	return g.Canonical && hasSource && hasContents
}

// ask lets llbm read the definition, once.
func (p *Plan) ask() {
	if p.done != nil {
		return
	}
	p.done = make(chan struct{})
	go func() {
		defer close(p.done)
		if p.plan, p.err = p.planned(); p.err != nil {
			p.cancel()
		}
	}()
}

func (p *Plan) planned() (*machine.Plan, error) {
	entries, err := graph.Entries(p.shown)
	if err != nil {
		return nil, err
	}
	plan, err := p.program.Plan(p.Context, entries)
	return plan, graph.WrapRow(p.sent, err, said)
}

// Wait waits until llbm has ended, if it was asked, and returns its refusal.
func (p *Plan) Wait() error {
	if p.done != nil {
		<-p.done
	}
	return p.err
}

// IsByValue is whether a vertex reads contents for which no token must be given. llbm was not asked about a source that has what an
// archive unpacks to: its contents are read by whoever copies from it.
func (p *Plan) IsByValue(g *graph.Graph, v int) bool {
	if p.plan == nil {
		return false
	}
	if row := g.Vertices[v].Place; row < len(p.shown.Def)-1 {
		return p.plan.ByValue[digest.FromBytes(p.shown.Def[row]).String()]
	}
	for user := range g.Vertices {
		if slices.Contains(g.Vertices[user].Inputs, v) && p.IsByValue(g, user) {
			return true
		}
	}
	return false
}

// IsMarked is whether something writes the byte by which tokens are known.
func (p *Plan) IsMarked() bool { return p.plan != nil && p.plan.Marks }

// Over notes that a session has read what runs: there is nothing more to ask.
func (p *Plan) Over() { p.isOver = true }

// Refused returns llbm's refusal of what runs, with what the client knows of the row that it names. Of a definition with further
// entries it is not known which one the client's is.
func (p *Plan) Refused(g *graph.Graph, err error) error {
	if len(g.Def.Def) != len(p.sent.Def) {
		return err
	}
	return graph.WrapRow(p.sent, err, said)
}

// Ended returns why the work on a definition ended: by a refusal of llbm, if it refuses the definition, or else by the error.
func (p *Plan) Ended(err error) error {
	if p.shown != nil && !p.isOver && p.Context.Err() == nil {
		p.ask()
	}
	if refused := p.Wait(); refused != nil {
		return refused
	}
	return err
}

// within returns a definition without what llbm does not take and the rewriting takes away.
func within(def *pb.Definition) (*pb.Definition, error) {
	return graph.Rewrite(def, func(_ int, op *pb.Op) (bool, error) { return rules.Within(op), nil })
}
