package rules

import (
	"fmt"
	"slices"

	"github.com/moby/buildkit/solver/pb"
	digest "github.com/opencontainers/go-digest"
)

// Notes without a rule.
const (
	Execution    = "Execution"
	SourceInputs = "SourceInputs"
	ShortMerge   = "ShortMerge"
	UnknownInput = "UnknownInput"
	RmAboveRoot  = "RmAboveRoot"
	Refused      = "Refused"
)

// Breaks is whether BuildKit's daemon dies of what a note names.
func Breaks(name string) bool {
	return name == SourceInputs || name == ShortMerge || name == UnknownInput || name == RmAboveRoot
}

func lineOfNote(name string) Line {
	text := TextOf(name)
	return Line{Words: fmt.Sprintf("%s (here %s)", text.BuildKit, text.LLBM), Notes: []string{name}}
}

// Static returns what can be said of a vertex without its trees, by its op as it was sent: that it is an execution, and what
// BuildKit's daemon dies of.
func Static(op *pb.Op) []Step {
	var out []Step
	add := func(action int, name string) {
		out = append(out, Step{Action: action, Lines: []Line{lineOfNote(name)}})
	}
	if exec := op.GetExec(); exec != nil {
		add(-1, Execution)
		if why, _ := Refusal(exec); why != "" {
			add(-1, Refused)
		}
	}
	wanted := map[int]bool{-1: true}
	for _, number := range needed(op.GetFile().GetActions(), len(op.Inputs), All) {
		wanted[number] = true
	}
	for _, one := range Breaking(op) {
		if wanted[one.Action] {
			add(one.Action, one.Name)
		}
	}
	return out
}

// StepOfNote returns a step of a vertex as a whole by a note.
func StepOfNote(name string) Step { return Step{Action: -1, Lines: []Line{lineOfNote(name)}} }

// Refusal returns why BuildKit refuses an execution as it loads a definition, in its words, and whether it is for lack of an
// entitlement; or nothing.
func Refusal(exec *pb.ExecOp) (why string, isDenied bool) {
	isRoot := func(m *pb.Mount) bool { return m.Dest == pb.RootMount }
	switch {
	case !slices.ContainsFunc(exec.Mounts, isRoot):
		return "invalid exec op with no rootfs", false
	case exec.Network == pb.NetMode_HOST:
		return "network.host is not allowed", true
	case exec.Security == pb.SecurityMode_INSECURE:
		return "security.insecure is not allowed", true
	}
	return "", false
}

// diesOf returns the step of an action that fails, if BuildKit's daemon dies of it.
func diesOf(op *pb.FileOp, number int) *Step {
	if number < 0 {
		return nil
	}
	if rm := op.Actions[number].GetRm(); rm == nil || !leavesTree(rm) {
		return nil
	}
	return &Step{Action: number, Lines: []Line{lineOfNote(RmAboveRoot)}}
}

// UnknownInputs returns a line for each input of an entry that names no entry.
func UnknownInputs(def *pb.Definition) []Line {
	known := map[digest.Digest]bool{}
	for _, entry := range def.Def {
		known[digest.FromBytes(entry)] = true
	}
	var out []Line
	for row, entry := range def.Def {
		op := &pb.Op{}
		if op.Unmarshal(entry) != nil {
			continue
		}
		for i, input := range op.Inputs {
			if !known[input.Digest] {
				line := lineOfNote(UnknownInput)
				line.Words = fmt.Sprintf("entry %d input %d: %s", row, i, line.Words)
				out = append(out, line)
			}
		}
	}
	return out
}

// outputsOf returns the mounts of an execution whose trees are outputs, by the output.
func outputsOf(exec *pb.ExecOp) map[int]*pb.Mount {
	mounts := map[int]*pb.Mount{}
	for _, mount := range exec.GetMounts() {
		if mount.Output != nothing {
			mounts[int(mount.Output)] = mount
		}
	}
	return mounts
}

// Outputs returns how many outputs an execution has.
func Outputs(exec *pb.ExecOp) int { return len(outputsOf(exec)) }

// Bases returns what the outputs of an execution are changes of: trees of its inputs, or nil.
func Bases[T any](exec *pb.ExecOp, inputs []*T) []*T {
	mounts, out := outputsOf(exec), []*T{}
	for number := range len(mounts) {
		var base *T
		if mount := mounts[number]; mount != nil && mount.Input != nothing {
			base = inputs[mount.Input]
		}
		out = append(out, base)
	}
	return out
}

// Left returns the outputs of an execution as changes of its inputs.
func Left(exec *pb.ExecOp, inputs []*Ref, outputs []*Node) []*Ref {
	out := []*Ref{}
	for number, base := range Bases(exec, inputs) {
		out = append(out, On(base, outputs[number]))
	}
	return out
}
