package rules

import (
	"github.com/moby/buildkit/solver/pb"
	"llbm/daemon/internal/persistent"
)

// A Reading is who reads an output of a vertex.
type Reading int

// The readings, each of which is more than the one before.
const (
	Unread Reading = iota // nothing does: BuildKit makes the output, and no result depends on it
	Tried                 // only what makes such outputs: it can fail by what is there
	Shown                 // the result does
)

// ReadingOf is the reading of an output; without a list all are read.
func ReadingOf(list []Reading, output int) Reading {
	switch {
	case list == nil:
		return Shown
	case output < len(list):
		return list[output]
	}
	return Unread
}

// InputReadings returns how a vertex reads its inputs, if its outputs are read in some ways. An execution may do something else for
// each difference of its inputs. A merge fails for none.
func InputReadings(op *pb.Op, own []Reading) []Reading {
	out := make([]Reading, len(op.Inputs))
	if op.GetFile() != nil {
		inputsOfActions(op.GetFile().GetActions(), own, out)
		return out
	}
	for i := range out {
		out[i] = Shown
		if op.GetMerge() != nil {
			out[i] = ReadingOf(own, 0)
		}
	}
	return out
}

// inputsOfActions sets how actions read the inputs of their op.
func inputsOfActions(actions []*pb.FileAction, own, out []Reading) {
	set := func(index pb.InputIndex, how Reading) {
		if index >= 0 && int(index) < len(out) {
			out[index] = max(out[index], how)
		}
	}
	for _, number := range hashedCopies(actions, len(out)) {
		set(actions[number].SecondaryInput, Tried)
	}
	for number, how := range actionReadings(actions, len(out), own) {
		set(actions[number].Input, how)
		if actions[number].GetCopy() != nil {
			set(actions[number].SecondaryInput, how)
		}
	}
}

// actionReadings returns how what each action makes is read that BuildKit does.
func actionReadings(actions []*pb.FileAction, count int, own []Reading) map[int]Reading {
	found := map[int]Reading{}
	for _, number := range needed(actions, count, All) {
		found[number] = Tried
	}
	for number := range leadingTo(actions, count, func(output int) bool { return ReadingOf(own, output) == Shown }) {
		found[number] = Shown
	}
	return found
}

// leadingTo returns the actions on which outputs depend for which a function holds.
func leadingTo(actions []*pb.FileAction, count int, holds func(output int) bool) map[int]bool {
	found := map[int]bool{}
	var todo []int
	for number, action := range actions {
		if action.Output != nothing && holds(int(action.Output)) {
			todo = append(todo, number)
		}
	}
	for len(todo) > 0 {
		number := todo[len(todo)-1]
		todo = todo[:len(todo)-1]
		if number < len(actions) && !found[number] {
			found[number] = true
			todo = append(todo, needs(actions[number], count)...)
		}
	}
	return found
}

// isSeen is whether somebody can see how two outputs differ. Where they are only tried, it can be seen what is there, and whether it
// is a directory.
func (how Reading) isSeen(p pair) bool {
	switch how {
	case Unread:
		return false
	case Tried:
		return !sameShape(p, map[sums]bool{})
	}
	return !p.agrees()
}

// sameShape is whether two trees have the same paths, and the same of them are directories. What trees have many times is compared once.
func sameShape(p pair, known map[sums]bool) bool {
	switch {
	case p.agrees():
		return true
	case p.there == nil || p.here == nil || p.there.dir != p.here.dir:
		return false
	}
	key := sums{p.there.Sum(), p.here.Sum()}
	if same, ok := known[key]; ok {
		return same
	}
	same := true
	for name := range persistent.Differing(p.there.children(), p.here.children()) {
		if same = sameShape(p.child(name), known); !same {
			break
		}
	}
	known[key] = same
	return same
}
