package rules

import (
	"slices"
	"time"

	"github.com/moby/buildkit/solver/pb"
	"llbm/daemon/internal/persistent"
)

// SameTime is the name of the note that a merge of BuildKit can keep an old file, as the new one has its size and its time.
const SameTime = "SameTime"

// mostReplaced is how many replaced files of a tree's layers are known at most.
const mostReplaced = 1000

// A Time is the size of a file and when it was changed, in nanoseconds.
type Time struct {
	Size int64 `json:"size"`
	At   int64 `json:"at"`
}

// IsWhole is whether a time is one of whole seconds. Of such files BuildKit looks at the contents.
func IsWhole(at int64) bool { return at%int64(time.Second) == 0 }

// A Replaced is a path at which a layer has another file than what the layer is a change of, and BuildKit takes the two for one.
type Replaced struct {
	path         []string
	lower, upper *Node
}

// NoteReplaced notes in an output of a file op which files BuildKit does not see as changed: those with the mode, the owner, the size
// and the time of the file before. If copies set times, theirs can be any.
func NoteReplaced(out *Ref, inputs []*Ref, anyTime bool) {
	s := replacedSearch{anyTime: anyTime, without: map[sums]bool{}}
	for one := out; one.base != nil && !slices.Contains(inputs, one); one = one.base {
		s.below(nil, one.base.tree, one.tree)
	}
	out.replaced = append(slices.Clip(out.replaced), s.found...)
}

// A replacedSearch looks for such files.
type replacedSearch struct {
	anyTime bool
	found   []Replaced
	without map[sums]bool // directories below which there are none
}

func (s *replacedSearch) below(path []string, lower, upper *Node) {
	key, count := sums{lower.Sum(), upper.Sum()}, len(s.found)
	if s.without[key] {
		return
	}
	for name, one := range persistent.Differing(lower.children(), upper.children()) {
		at := below(path, name)
		switch {
		case one.A == nil || one.B == nil || one.A.dir != one.B.dir || len(s.found) == mostReplaced:
		case one.A.dir:
			s.below(at, one.A, one.B)
		case s.areAlike(one.A, one.B):
			s.found = append(s.found, Replaced{at, one.A, one.B})
		}
	}
	s.without[key] = len(s.found) == count
}

// areAlike is whether BuildKit takes two files for one that have not the same content.
func (s *replacedSearch) areAlike(a, b *Node) bool {
	sameTime := s.anyTime || a.time.At == b.time.At && !IsWhole(a.time.At)
	return (pair{a, b}).aspects() == ofContent && a.time.Size == b.time.Size && a.time.Size > 0 && sameTime
}

// KeepsReplaced returns a line for each file that a merge of some inputs has, and BuildKit's can have as it was before. A merge of one
// input is that input.
func KeepsReplaced(merge *Ref, inputs []*Ref) []Line {
	var lines []Line
	for _, input := range inputs {
		if input == merge {
			return nil
		}
		for _, one := range input.replaced {
			if !SameContent(merge.tree.At(one.path), one.upper) || len(merge.replaced) == mostReplaced {
				continue
			}
			merge.replaced = append(merge.replaced, one)
			lines = append(lines, Line{
				Words: shown(one.path) + " can be the file that was there before, which has its size and time", Notes: []string{SameTime},
				Contents: [][]byte{[]byte(one.lower.content.text), []byte(one.upper.content.text)},
			})
		}
	}
	return lines
}

// SetsTime is whether a copy of an op sets a time that is not one of whole seconds.
func SetsTime(op *pb.Op) bool {
	return slices.ContainsFunc(op.GetFile().GetActions(), func(action *pb.FileAction) bool {
		at := action.GetCopy().GetTimestamp()
		return at > 0 && !IsWhole(at)
	})
}
