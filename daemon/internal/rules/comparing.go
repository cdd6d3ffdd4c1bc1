package rules

import (
	"context"
	"errors"
	"fmt"

	"github.com/moby/buildkit/solver/pb"
	"llbm/daemon/internal/printable"
)

// Notes of a comparison without a rule.
const (
	// Rewriting is the name of the note that no rule explains a difference: llbm runs another action than was sent.
	Rewriting = "Rewriting"
	// HardLinks is the name of the note that a file is written which has other names.
	HardLinks = "HardLinks"
)

// mostLines is how many paths of a step are looked at.
const mostLines = 1000

// A Step is an action of a file op as it was sent, or a vertex as a whole (-1), that ends otherwise.
type Step struct {
	Action int
	Lines  []Line
	More   bool // whether there is more than the lines say
}

// A Line is one way in which a step ends otherwise: in words, with the names of the rules or notes by which it does. Without one
// it is only that what the step works on differs already.
type Line struct {
	Words string   `json:"words"`
	Notes []string `json:"notes"`
	More  int      `json:"more,omitempty"` // how many further paths have the same notes
	// Contents are those of two files of which only a difference matters, as their trees have them.
	Contents [][]byte `json:"contents,omitempty"`
}

// Follows are the words for a difference without a rule.
const Follows = "its inputs differ"

func (l Line) String() string {
	if len(l.Notes) == 0 {
		return printable.Of(l.Words) + ": " + Follows
	}
	names := ""
	for _, name := range l.Notes {
		names += ", " + name
	}
	return printable.Of(l.Words) + ": " + names[2:]
}

func lineOf(words string, causes []Rule) Line {
	line := Line{Words: words}
	for _, rule := range causes {
		line.Notes = append(line.Notes, rule.String())
	}
	return line
}

// A Compared is a vertex that was done as it was sent by BuildKit's rules, and as it runs by those of llbm. Outputs are nil if it
// fails, or if its inputs are not known.
type Compared struct {
	There []*Ref
	Here  []*Node
	Steps []Step
	Fails string // why BuildKit fails, if it does
	Dies  *Step  // of what its daemon dies where it fails, if it does
}

// Compare does a vertex, which is no source and no execution, as it was sent and as it runs. Of a file op it is given which action
// that was sent each one is, or is a part of, that runs; nil if they are the same. What runs is nil if nothing needs it, and
// inputs are nil if they are not known. What nobody sees, by how the outputs are read, is no step.
func Compare(ctx context.Context, sent, run *pb.Op, from []int, there []*Ref, here []*Node, read []Reading) (*Compared, error) {
	if run == nil {
		run, here = sent, nil
	}
	if sent.GetMerge() != nil {
		return compareMerges(ctx, sent.GetMerge(), run, there, here, ReadingOf(read, 0))
	}
	return compareFileOps(ctx, sent.GetFile(), run.GetFile(), from, there, here, read)
}

// failed returns which action failed, if one did.
func failed(err error) (*ActionFails, bool) {
	var one *ActionFails
	ok := errors.As(err, &one)
	return one, ok
}

// WithoutLayers returns refs whose layers nothing needs, so that these can be forgotten; nil of nil.
func WithoutLayers(refs []*Ref) []*Ref {
	if refs == nil {
		return nil
	}
	return asRefs(asTrees(refs))
}

// asRefs returns trees without layers.
func asRefs(trees []*Node) []*Ref {
	out := []*Ref{}
	for _, t := range trees {
		out = append(out, Based(t))
	}
	return out
}

func asTrees(refs []*Ref) []*Node {
	out := []*Node{}
	for _, one := range refs {
		out = append(out, one.tree)
	}
	return out
}

// stepOf returns a step with a line for each difference. A difference that no rule explains follows from the inputs, if they
// differ.
func stepOf(action int, s *search, inputsDiffer bool, of func(difference) []Rule) Step {
	step := Step{Action: action, More: s.more}
	for _, one := range s.found {
		line := lineOf(one.words(), of(one))
		if len(line.Notes) == 0 && !inputsDiffer {
			line.Notes = []string{Rewriting}
		}
		step.Lines = append(step.Lines, line)
	}
	return step
}

// pairsOf returns the pairs of two lists that do not agree.
func pairsOf(there, here []*Node) []pair {
	var out []pair
	for i := range min(len(there), len(here)) {
		out = append(out, pair{there[i], here[i]})
	}
	return differing(out)
}

// CompareSources compares what BuildKit's client sends of a tree with the tree.
func CompareSources(ctx context.Context, source *pb.SourceOp, t *Node) (*Compared, error) {
	made := func(like Rules) (*Node, error) { return Sent(ctx, source, t, like) }
	by := causesOf([]Rule{LocalOwner, Filters}, made)
	if err := ctx.Err(); err != nil {
		return nil, err
	}
	c := &Compared{Here: []*Node{t}}
	if by.there.err != nil {
		c.Fails = by.there.err.Error()
		c.Steps = []Step{{Action: -1, Lines: []Line{lineOf("fails: "+c.Fails, by.ofFault())}}}
		return c, nil
	}
	c.There = []*Ref{Based(by.there.tree)}
	s := &search{ctx: ctx, most: mostLines}
	if err := s.below("", pair{by.there.tree, t}, nil); err != nil {
		return nil, err
	}
	if len(s.found) > 0 {
		c.Steps = []Step{stepOf(-1, s, false, by.of)}
	}
	return c, nil
}

// Same is a local source of which BuildKit has what llbm has.
func Same(t *Node) *Compared { return &Compared{There: []*Ref{Based(t)}, Here: []*Node{t}} }

// wordsOfFault returns the words for a fault that llbm alone has.
func wordsOfFault(fault *ActionFails) string { return fmt.Sprintf("does not fail (here: %v)", fault) }
