package rules

import (
	"context"
	"errors"

	"github.com/moby/buildkit/solver/pb"
	"llbm/daemon/internal/paths"
)

// A sideBySide is a file op while it is done as it was sent, by BuildKit's rules, and as it runs, by those of llbm.
type sideBySide struct {
	ctx                   context.Context
	sent                  *pb.FileOp
	from                  []int         // which action of the op as it was sent an action of the other is, or is a part of
	parts                 map[int][]int // the reverse
	there, here           *fileOp
	faultThere, faultHere *ActionFails
	inputsThere           []*Ref
	inputsHere            []*Node
	outputsThere          []*Ref
	outputsHere           []*Node
	read                  []Reading    // who reads the outputs
	seen                  map[int]bool // the actions of which somebody sees what they make otherwise
	leads                 map[int]bool // the actions on which an output depends that is read
}

// compareFileOps does a file op as it was sent, on the inputs in BuildKit, and as it runs, on those in llbm. For each action that
// runs it is given which one of those that were sent it is, or is a part of; nil if the actions are the same. Inputs are nil if
// they are not known.
func compareFileOps(ctx context.Context, sent, run *pb.FileOp, from []int, there []*Ref, here []*Node, read []Reading) (*Compared, error) {
	f := &sideBySide{ctx: ctx, sent: sent, from: from, parts: map[int][]int{}, inputsThere: there, inputsHere: here, read: read}
	for number := range run.Actions {
		f.parts[f.sentAs(number)] = append(f.parts[f.sentAs(number)], number)
	}
	var err error
	if here != nil {
		var outputs []*Ref
		if f.here, outputs, f.faultHere, err = f.ruled(run, asRefs(here), None); err != nil {
			return nil, err
		}
		if f.faultHere == nil {
			f.outputsHere = asTrees(outputs)
		}
	}
	if there != nil {
		if f.there, f.outputsThere, f.faultThere, err = f.ruled(sent, there, All); err != nil {
			return nil, err
		}
	}
	c := &Compared{There: f.outputsThere, Here: f.outputsHere}
	if f.faultThere != nil {
		c.Fails, c.Dies = f.faultThere.Error(), diesOf(sent, f.faultThere.Action)
	}
	if there == nil || here == nil || f.faultThere != nil && errors.Is(f.faultThere.Err, ErrHost) {
		return c, nil // what BuildKit makes is not known
	}
	f.seen = leadingTo(sent.Actions, len(there), f.isSeen)
	f.leads = leadingTo(sent.Actions, len(there), func(output int) bool { return ReadingOf(read, output) == Shown })
	c.Steps, err = f.steps()
	return c, err
}

// isSeen is whether somebody sees how an output differs. Where one of both failed, what was done before it counts.
func (f *sideBySide) isSeen(output int) bool {
	how := ReadingOf(f.read, output)
	if f.faultThere != nil || f.faultHere != nil || len(f.outputsThere) != len(f.outputsHere) {
		return how == Shown
	}
	return output >= len(f.outputsHere) || how.isSeen(pair{f.outputsThere[output].tree, f.outputsHere[output]})
}

// sentAs returns which action of the op as it was sent an action is a part of.
func (f *sideBySide) sentAs(number int) int {
	if number < len(f.from) {
		return f.from[number]
	}
	return number
}

// ruled returns a file op that was done by some rules, its outputs, and which action failed.
func (f *sideBySide) ruled(op *pb.FileOp, inputs []*Ref, like Rules) (*fileOp, []*Ref, *ActionFails, error) {
	one := newFileOp(op, inputs, like)
	outputs, err := one.outputs(f.ctx)
	if done := f.ctx.Err(); done != nil {
		return nil, nil, nil, done
	}
	if fault, ok := failed(err); ok {
		return one, nil, fault, nil
	}
	return one, outputs, nil, err
}

// steps returns the actions that end otherwise. What none of them shows is one of the op.
func (f *sideBySide) steps() ([]Step, error) {
	var out []Step
	for number := range f.sent.Actions {
		if err := f.ctx.Err(); err != nil {
			return nil, err
		}
		step, err := f.action(number)
		if err != nil {
			return nil, err
		}
		if len(step.Lines) > 0 {
			out = append(out, step)
		}
	}
	if len(out) > 0 || f.faultThere != nil || f.faultHere != nil {
		return out, nil
	}
	return f.whole()
}

// whole returns the step of the op if its inputs agree, and its outputs do not.
func (f *sideBySide) whole() ([]Step, error) {
	if len(pairsOf(asTrees(f.inputsThere), f.inputsHere)) > 0 {
		return nil, nil
	}
	for i := range max(len(f.outputsThere), len(f.outputsHere)) {
		var one pair
		if i < len(f.outputsThere) {
			one.there = f.outputsThere[i].tree
		}
		if i < len(f.outputsHere) {
			one.here = f.outputsHere[i]
		}
		if !f.isSeen(i) {
			continue
		}
		s := &search{ctx: f.ctx, most: mostLines}
		if err := s.below("", one, nil); err != nil {
			return nil, err
		}
		if len(s.found) > 0 {
			return []Step{stepOf(-1, s, false, func(difference) []Rule { return nil })}, nil
		}
	}
	return nil, nil
}

// stepHere returns what the parts of an action did together, if they were done.
func (f *sideBySide) stepHere(number int) *step {
	parts := f.parts[number]
	if len(parts) == 0 {
		return nil
	}
	first, isFirst := f.here.steps[parts[0]]
	last, isLast := f.here.steps[parts[len(parts)-1]]
	if !isFirst || !isLast {
		return nil
	}
	return &step{first.base, last.second, last.left}
}

// action returns the lines of an action. Where both fail, they end in the same way.
func (f *sideBySide) action(number int) (Step, error) {
	s := Step{Action: number}
	here := f.stepHere(number)
	one, isThere := f.there.steps[number]
	there := &one
	switch {
	case f.faultThere != nil && f.faultHere != nil:
		if f.leavesNoRoot(number) {
			s.Lines = []Line{lineOf("does not fail if what it leaves is not read (here it fails)", []Rule{RmRoot})}
		}
	case f.faultThere != nil && f.faultThere.Action == number:
		s.Lines = []Line{f.lineOfFault("fails: "+f.faultThere.Error(), f.causesOfFault(number, here), number)}
	case f.faultHere != nil && f.sentAs(f.faultHere.Action) == number && !isThere:
		s.Lines = []Line{lineOf("is not done (here it fails)", []Rule{UnusedAction})}
	case f.faultHere != nil && f.sentAs(f.faultHere.Action) == number:
		s.Lines = []Line{f.lineOfFault(wordsOfFault(f.faultHere), f.causesOf(number, there, here).ofFault(), number)}
	case isThere && here != nil && f.seen[number]:
		var err error
		if s, err = f.trees(number, there, here); err != nil {
			return s, err
		}
	}
	if isThere && f.faultThere == nil && f.leads[number] && f.writesLinked(number, there.base) {
		s.Lines = append(s.Lines, Line{Words: "writes a file that has other names in its source", Notes: []string{HardLinks}})
	}
	return s, f.ctx.Err()
}

// leavesNoRoot is whether BuildKit's daemon fails at an action only as it reads the action's output, which nobody does.
func (f *sideBySide) leavesNoRoot(number int) bool {
	output := f.sent.Actions[number].Output
	isOnlyOutput := output != nothing && f.there.uses[len(f.inputsThere)+number] == 0
	return f.faultThere.Action == number && f.faultThere.Err == errNoRoot && isOnlyOutput && ReadingOf(f.read, int(output)) == Unread
}

// trees returns the lines of an action that ends well in both.
func (f *sideBySide) trees(number int, there, here *step) (Step, error) {
	before := pairsOf([]*Node{there.base, there.second}, []*Node{here.base, here.second})
	s := &search{ctx: f.ctx, most: mostLines, there: there.left.grafted, here: here.left.grafted}
	if err := s.below("", pair{there.left.tree, here.left.tree}, before); err != nil || len(s.found) == 0 {
		return Step{Action: number}, err
	}
	return stepOf(number, s, len(before) > 0, f.causesOf(number, there, here).of), nil
}

// lineOfFault returns the line of an action that fails in one of both.
func (f *sideBySide) lineOfFault(words string, causes []Rule, number int) Line {
	line := lineOf(words, causes)
	if len(causes) == 0 && len(pairsOf(asTrees(f.inputsThere), f.inputsHere)) == 0 {
		line.Notes = []string{Rewriting}
	}
	return line
}

func (f *sideBySide) causesOf(number int, there, here *step) *causes {
	action := f.there.numbers[number] // its owner has numbers
	if action == nil {
		action = f.sent.Actions[number]
	}
	return causesOfAction(f.ctx, action, there, here)
}

// causesOfFault returns the rules by which an action fails in BuildKit: its own, on the trees that it failed on or, if BuildKit did
// not come to it, that llbm has; or else one of the op.
func (f *sideBySide) causesOfFault(number int, here *step) []Rule {
	on := f.there.failed
	if on == nil {
		on = here
	}
	if on == nil {
		on = &step{base: Empty(), second: Empty()}
	}
	if found := f.causesOf(number, on, here).ofFault(); len(found) > 0 {
		return found
	}
	if fault, ok := failed(checkSelected(f.ctx, f.sent.Actions, f.inputsThere)); ok && fault.Action == number {
		return []Rule{Selected}
	}
	if fault, ok := failed(checkSecondInputs(f.sent.Actions, len(f.inputsThere))); ok && fault.Action == number {
		return []Rule{SecondInput}
	}
	return nil
}

// writesLinked is whether an action writes into a file that has other names.
func (f *sideBySide) writesLinked(number int, base *Node) bool {
	file := f.sent.Actions[number].GetMkfile()
	if file == nil {
		return false
	}
	old := base.At(paths.Names(file.Path))
	return old != nil && old.linked
}
