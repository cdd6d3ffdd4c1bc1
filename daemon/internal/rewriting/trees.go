package rewriting

import (
	"context"
	"errors"
	"fmt"

	"github.com/moby/buildkit/solver/pb"
	"llbm/daemon/internal/rules"
)

// mostActions is how many actions a rewritten op has at most, before it is divided.
const mostActions = 4 * mostRecords

var errTooMany = errors.New("an op would have too many actions")

// A pair has the tree of an input or a result: as llbm makes it, and as BuildKit makes it of the new actions.
type pair struct{ here, again *rules.Node }

// A treeWriter rewrites a file op whose inputs are known. BuildKit has done the actions as they were sent; each becomes actions
// after which llbm has the tree that BuildKit had after it.
type treeWriter struct {
	*fileOp
	ctx   context.Context
	pairs []pair // of inputs, and of what the new actions make
}

// fileByTrees rewrites a file op by the trees of its inputs, and returns whether it could.
func (w *writer) fileByTrees(ctx context.Context, v int, inputs []trees) (bool, error) {
	for _, one := range inputs {
		if !one.agree {
			return false, nil
		}
	}
	it := &w.graph.Vertices[v]
	here, there, again := lists(inputs)
	did, err := rules.Steps(ctx, it.Op.GetFile(), there, rules.All)
	var fault *rules.ActionFails
	switch {
	case rules.IsUnknown(err):
		return false, nil
	case errors.As(err, &fault):
		return true, w.failFile(ctx, v, here, fault)
	case err != nil:
		return false, err
	}
	f, outputs, isBeyond := w.fileOp(it.Op), did.Outputs, rules.IsBeyond(it.Op.GetFile())
	f.sent = did.Actions
	for number, action := range it.Op.GetFile().GetActions() {
		if f.sent[number] != action {
			f.change(number, numbered)
		}
	}
	if byLLBM, err := rules.FileOp(ctx, it.Op.GetFile(), here, rules.None); isBeyond || err != nil || !areEqual(byLLBM, outputs) {
		if ctx.Err() != nil {
			return false, ctx.Err()
		}
		t := &treeWriter{fileOp: f, ctx: ctx}
		for _, one := range inputs {
			t.pairs = append(t.pairs, pair{one.here, one.again.Tree().WithEntryOf(one.again.Tree())})
		}
		if !t.all(did.Left) {
			return false, ctx.Err()
		}
	}
	return w.settle(ctx, v, f, here, outputs, again)
}

func areEqual(here, there []*rules.Ref) bool {
	for i := range here {
		if !rules.EqualBelow(here[i].Tree(), there[i].Tree()) {
			return false
		}
	}
	return len(here) == len(there)
}

// settle takes the new actions of a file op if by all rules they make what BuildKit makes of the old ones.
func (w *writer) settle(ctx context.Context, v int, f *fileOp, here, outputs, again []*rules.Ref) (bool, error) {
	op := &pb.FileOp{Actions: f.new}
	if len(f.new) == 0 {
		op.Actions = f.sent
	}
	byLLBM, err := rules.FileOp(ctx, op, here, rules.None)
	if err != nil {
		return false, ctx.Err()
	}
	andAgain, err := rules.FileOp(ctx, op, again, rules.All)
	if err != nil || !areEqual(byLLBM, outputs) || !areEqual(andAgain, outputs) {
		return false, ctx.Err()
	}
	for i := range outputs {
		w.states[v].outputs = append(w.states[v].outputs, treesOf(byLLBM[i].Tree(), outputs[i], andAgain[i]))
	}
	if len(f.new) > 0 {
		w.setFile(v, f)
	}
	return true, nil
}

// failFile takes the actions without their trees, if llbm then fails at the action at which BuildKit fails, and else actions that
// fail.
func (w *writer) failFile(ctx context.Context, v int, here []*rules.Ref, fault *rules.ActionFails) error {
	it := &w.graph.Vertices[v]
	f := w.fileOp(it.Op)
	f.treeless(ctx)
	_, err := rules.FileOp(ctx, &pb.FileOp{Actions: f.new}, here, rules.None)
	if ctx.Err() != nil {
		return ctx.Err()
	}
	var failed *rules.ActionFails
	if f.isBeyond || !errors.As(err, &failed) || f.Actions[failed.Action] != fault.Action {
		f.fail(fault.Action, fault.Error())
	}
	w.setFile(v, f)
	return nil
}

// needed returns whether an output needs the result of each action.
func (f *fileOp) needed() []bool {
	found := make([]bool, len(f.sent))
	for number := len(f.sent) - 1; number >= 0; number-- {
		action := f.sent[number]
		if action.Output == noOutput && !found[number] {
			continue
		}
		found[number] = true
		indexes := []pb.InputIndex{action.Input}
		if action.GetCopy() != nil {
			indexes = append(indexes, action.SecondaryInput)
		}
		for _, index := range indexes {
			if before := int(index) - f.count; before >= 0 {
				found[before] = true
			}
		}
	}
	return found
}

// all rewrites all actions; left has what BuildKit makes of each. It returns whether it could.
func (t *treeWriter) all(left map[int]*rules.Node) bool {
	for number, needed := range t.needed() {
		switch {
		case !needed:
			t.change(number, "dropped, since no output needs it")
		case !t.act(number, left[number]):
			return false
		}
	}
	return len(t.new) <= t.most
}

// act adds actions that do what BuildKit does for an action: the same one, if both agree on it, or else one that is rewritten
// without its trees, or else others.
func (t *treeWriter) act(number int, wanted *rules.Node) bool {
	mark := len(t.new)
	for _, way := range []func(*cursor, *rules.Node) error{(*cursor).asSent, (*cursor).treeless, (*cursor).byTrees} {
		c := t.begin(number)
		if way(c, wanted) == nil && c.isAt(wanted) && c.end(wanted) == nil {
			return true
		}
		if t.ctx.Err() != nil {
			return false
		}
		t.new, t.Actions, t.pairs = t.new[:mark], t.Actions[:mark], t.pairs[:t.count+mark]
	}
	return false
}

// A cursor adds the new actions of one action, each on what the one before made.
type cursor struct {
	*treeWriter
	number  int
	sent    *pb.FileAction
	at      pb.InputIndex // what the next action works on
	base    pb.InputIndex
	second  pb.InputIndex
	mark    int
	changes []string
	from    []source
	// compared has whether copies of nodes, with the action's mode and owner, are as wanted.
	compared map[[2]*rules.Node]bool
}

func (t *treeWriter) begin(number int) *cursor {
	c := &cursor{treeWriter: t, number: number, sent: t.fileOp.sent[number], second: nothing, mark: len(t.new), compared: map[[2]*rules.Node]bool{}}
	c.base = t.placeOf(c.sent.Input)
	if c.at = c.base; c.sent.GetCopy() != nil {
		c.second = t.placeOf(c.sent.SecondaryInput)
	}
	return c
}

func (t *treeWriter) pair(index pb.InputIndex) pair {
	if index < 0 {
		return pair{rules.Empty(), rules.Empty()}
	}
	return t.pairs[index]
}

func (c *cursor) here() *rules.Node { return c.pair(c.at).here }

// isAt is whether what was made so far is a tree, by both sets of rules.
func (c *cursor) isAt(wanted *rules.Node) bool {
	one := c.pair(c.at)
	return rules.EqualBelow(one.here, wanted) && rules.EqualBelow(one.again, wanted)
}

// do adds an action, unless it fails by one of both sets of rules.
func (c *cursor) do(action *pb.FileAction, second pb.InputIndex) error {
	if len(c.new) >= c.most {
		return errTooMany
	}
	base, from := c.pair(c.at), c.pair(second)
	here, err := rules.Act(c.ctx, action, base.here, from.here, rules.None)
	if err != nil {
		return err
	}
	again, err := rules.Act(c.ctx, action, base.again, from.again, rules.All)
	if err != nil {
		return err
	}
	c.at = c.put(c.number, action, c.at, second)
	c.pairs = append(c.pairs, pair{here, again})
	return nil
}

// end ends an action whose tree is as wanted. Nodes are shared from then on, so that they are compared fast.
func (c *cursor) end(wanted *rules.Node) error {
	if len(c.new) == c.mark && c.sent.Output != noOutput {
		if err := c.do(neutral(), nothing); err != nil {
			return err
		}
	}
	if len(c.new) > c.mark {
		c.new[len(c.new)-1].Output = c.sent.Output
		last := c.pairs[c.at]
		c.pairs[c.at] = pair{wanted.WithEntryOf(last.here), wanted.WithEntryOf(last.again)}
	}
	c.place[c.number] = c.at
	for _, what := range c.changes {
		c.change(c.number, what)
	}
	return nil
}

// asSent adds the action itself.
func (c *cursor) asSent(*rules.Node) error {
	if rules.Beyond(c.sent) != "" {
		return errBeyond
	}
	return c.do(cloned(c.sent), c.second)
}

// treeless adds the action as it is rewritten without its trees.
func (c *cursor) treeless(*rules.Node) error {
	action := cloned(c.sent)
	var w actionWriter
	w.within(action)
	w.rewrite(action)
	c.changes = w.changes
	if copied := action.GetCopy(); copied != nil {
		if mkdir := directoryBefore(copied, unknownSources); mkdir != nil {
			c.changes = append(c.changes, "an mkdir before it")
			if err := c.do(mkdir, nothing); err != nil {
				return err
			}
		}
	}
	return c.do(action, c.second)
}

// byTrees adds actions that make what is wanted of the tree that is there.
func (c *cursor) byTrees(wanted *rules.Node) (err error) {
	switch a := c.sent.Action.(type) {
	case *pb.FileAction_Copy:
		err = c.copies(a.Copy, wanted)
	case *pb.FileAction_Mkfile:
		err = c.write(a.Mkfile, wanted)
	case *pb.FileAction_Rm:
		if wanted == nil { // the root is removed
			c.at = nothing
		}
	}
	if err == nil && wanted != nil {
		c.from = append(c.from, source{index: c.base}, source{index: c.at})
		err = c.bridge(nil, c.pair(c.at), wanted)
	}
	switch count := len(c.new) - c.mark; count {
	case 0:
		c.changes = []string{"does nothing, by its trees"}
	case 1:
		c.changes = []string{"is another action, by its trees"}
	default:
		c.changes = []string{fmt.Sprintf("is %d actions, by its trees", count)}
	}
	return err
}
