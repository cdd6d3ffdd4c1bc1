package graph

import (
	"fmt"
	"testing"

	"github.com/moby/buildkit/solver/pb"
	digest "github.com/opencontainers/go-digest"
)

// A definition under construction: each entry is added with the indexes of earlier entries as its inputs.
type builder struct{ def pb.Definition }

func (b *builder) add(t *testing.T, op *pb.Op, inputs ...int) int {
	t.Helper()
	for _, k := range inputs {
		op.Inputs = append(op.Inputs, &pb.Input{Digest: digest.FromBytes(b.def.Def[k])})
	}
	entry, err := op.Marshal()
	if err != nil {
		t.Fatal(err)
	}
	b.def.Def = append(b.def.Def, entry)
	return len(b.def.Def) - 1
}

func source(name string) *pb.Op {
	return &pb.Op{Op: &pb.Op_Source{Source: &pb.SourceOp{Identifier: "local://" + name}}}
}

func merge(n int) *pb.Op {
	op := &pb.MergeOp{}
	for i := 0; i < n; i++ {
		op.Inputs = append(op.Inputs, &pb.MergeInput{Input: pb.InputIndex(i)})
	}
	return &pb.Op{Op: &pb.Op_Merge{Merge: op}}
}

// A diamond, with an entry that the result does not need, and with entries after those that use them.
func diamond(t *testing.T) *pb.Definition {
	b := &builder{}
	a := b.add(t, source("a"))
	b.add(t, source("unused"))
	c := b.add(t, source("c"))
	left := b.add(t, merge(2), a, c)
	right := b.add(t, merge(2), c, a)
	top := b.add(t, merge(2), left, right)
	b.add(t, &pb.Op{}, top)
	return &b.def
}

func TestEachVertexIsAfterThoseThatItNames(t *testing.T) {
	def := diamond(t)
	g, err := Read(def, def)
	if err != nil || !g.Canonical || g.Result != 4 || g.Output != 0 {
		t.Fatalf("%+v %v", g, err)
	}
	for v, want := range []int{0, 2, 3, 4, 5} {
		if g.Vertices[v].Row != want || g.Vertices[v].Digest != digest.FromBytes(def.Def[want]) {
			t.Errorf("vertex %d is row %d", v, g.Vertices[v].Row)
		}
	}
	if g.Vertices[0].Name != "local://a" || g.Vertices[4].Name != "merge" {
		t.Errorf("%+v", g.Vertices)
	}
}

func TestVerticesCanHaveTheNumbersOfLlbm(t *testing.T) {
	def := diamond(t)
	g, err := ReadNumbered(def, []int{2, 0, 4, 3, 5})
	if err != nil || g.Result != 4 {
		t.Fatalf("%+v %v", g, err)
	}
	for v, want := range []int{2, 0, 4, 3, 5} {
		if g.Vertices[v].Row != want {
			t.Errorf("vertex %d is row %d", v, g.Vertices[v].Row)
		}
	}
	if in := g.Vertices[4].Inputs; in[0] != 3 || in[1] != 2 {
		t.Error(in)
	}
	for name, numbered := range map[string][]int{
		"none": {}, "without the result": {0, 2, 3, 4}, "before what it names": {0, 3, 2, 4, 5}, "twice": {0, 0, 2, 3, 4, 5}, "no row": {0, 2, 3, 4, 5, 7},
		"below 0": {-1, 0, 2, 3, 4, 5},
	} {
		if g, err := ReadNumbered(def, numbered); err == nil {
			t.Errorf("%s: %+v", name, g)
		}
	}
}

// Inputs that llbm does not look at may name anything: those of entries that the result does not need, and further ones of the
// terminal.
func TestWhatTheResultDoesNotNeedMayNameAnything(t *testing.T) {
	b := &builder{}
	a := b.add(t, source("a"))
	none := &pb.Input{Digest: digest.FromString("none")}
	unused := merge(1)
	unused.Inputs = []*pb.Input{none}
	b.add(t, unused)
	b.add(t, &pb.Op{Inputs: []*pb.Input{{Digest: digest.FromBytes(b.def.Def[a])}, none}})
	def := &b.def
	if g, err := Read(def, def); err != nil || g.Result != 0 || len(g.Vertices) != 1 {
		t.Error(g, err)
	}
	rewritten, err := Rewrite(def, func(_ int, op *pb.Op) (bool, error) {
		changed := op.GetSource() != nil
		if changed {
			op.GetSource().Identifier = "local://b"
		}
		return changed, nil
	})
	if err != nil {
		t.Fatal(err)
	}
	g, err := Load(rewritten, def)
	if err != nil {
		t.Fatal(err)
	}
	if v := g.Vertices[0]; v.Op.GetSource().Identifier != "local://b" || v.Sent.GetSource().Identifier != "local://a" {
		t.Error(v.Op, v.Sent)
	}
}

func TestATerminalWithoutAResultIsRefused(t *testing.T) {
	for name, inputs := range map[string][]*pb.Input{"no input": nil, "an unknown one": {{Digest: digest.FromString("none")}}} {
		b := &builder{}
		b.add(t, source("a"))
		b.add(t, &pb.Op{Inputs: inputs})
		if _, err := Load(&b.def, &b.def); err == nil {
			t.Error(name)
		}
	}
}

func TestARewrittenOpIsNamedByItsUsersAnew(t *testing.T) {
	def := diamond(t)
	out, err := Rewrite(def, func(_ int, op *pb.Op) (bool, error) {
		if op.GetSource().GetIdentifier() != "local://c" {
			return false, nil
		}
		op.GetSource().Identifier = "local://d"
		return true, nil
	})
	if err != nil {
		t.Fatal(err)
	}
	g, err := Read(out, def)
	if err != nil {
		t.Fatal(err)
	}
	if g.Vertices[1].Op.GetSource().Identifier != "local://d" || g.Vertices[1].Digest != digest.FromBytes(def.Def[2]) || g.Vertices[1].Name != "local://c" {
		t.Errorf("%+v", g.Vertices[1])
	}
	if string(out.Def[0]) != string(def.Def[0]) || string(out.Def[3]) == string(def.Def[3]) {
		t.Error("what does not depend on the op is kept, and what does is changed")
	}
}

func TestNothingToRewriteIsTheSameDefinition(t *testing.T) {
	def := diamond(t)
	if out, err := Rewrite(def, func(int, *pb.Op) (bool, error) { return false, nil }); err != nil || out != def {
		t.Error(err)
	}
}

func TestALongChainIsRewritten(t *testing.T) {
	b := &builder{}
	last := b.add(t, source("a"))
	for i := 0; i < 5000; i++ {
		last = b.add(t, merge(1), last)
	}
	b.add(t, &pb.Op{}, last)
	// Backwards, so that each entry comes before the one that it names.
	def := &pb.Definition{}
	for k := len(b.def.Def) - 2; k >= 0; k-- {
		def.Def = append(def.Def, b.def.Def[k])
	}
	def.Def = append(def.Def, b.def.Def[len(b.def.Def)-1])
	out, err := Rewrite(def, func(_ int, op *pb.Op) (bool, error) {
		if op.GetSource() == nil {
			return false, nil
		}
		op.GetSource().Identifier = "local://b"
		return true, nil
	})
	if err != nil || len(out.Def) != len(def.Def) || string(out.Def[0]) == string(def.Def[0]) {
		t.Error(err)
	}
}

func TestAnOpWithUnknownFieldsIsNotCanonical(t *testing.T) {
	b := &builder{}
	a := b.add(t, source("a"))
	b.def.Def[a] = append(b.def.Def[a], 0x98, 0x06, 0x01) // field 99 is the number 1
	b.add(t, &pb.Op{}, a)
	g, err := Read(&b.def, &b.def)
	if err != nil || g.Canonical {
		t.Error(fmt.Sprint(g), err)
	}
}

func TestAnOpThatNamesWhatItHasNotIsRefused(t *testing.T) {
	action := func(input, second pb.InputIndex, copied bool) *pb.FileAction {
		out := &pb.FileAction{Input: input, SecondaryInput: second, Action: &pb.FileAction_Rm{Rm: &pb.FileActionRm{Path: "a"}}}
		if copied {
			out.Action = &pb.FileAction_Copy{Copy: &pb.FileActionCopy{Src: "a", Dest: "b"}}
		}
		return out
	}
	file := func(actions ...*pb.FileAction) *pb.Op {
		return &pb.Op{Op: &pb.Op_File{File: &pb.FileOp{Actions: actions}}}
	}
	merged := func(input pb.InputIndex) *pb.Op {
		return &pb.Op{Op: &pb.Op_Merge{Merge: &pb.MergeOp{Inputs: []*pb.MergeInput{{Input: 0}, {Input: input}}}}}
	}
	mounted := func(kind pb.MountType, input pb.InputIndex) *pb.Op {
		return &pb.Op{Op: &pb.Op_Exec{Exec: &pb.ExecOp{Mounts: []*pb.Mount{{Input: input, MountType: kind}}}}}
	}
	for name, c := range map[string]struct {
		op    *pb.Op
		taken bool
	}{
		"merge":              {merged(1), true},
		"merge of nothing":   {merged(-1), true},
		"merge beyond":       {merged(2), false},
		"merge before":       {merged(-2), false},
		"copy":               {file(action(0, -1, false), action(2, 1, true)), true},
		"input beyond":       {file(action(2, -1, false)), false},
		"input before":       {file(action(-2, -1, false)), false},
		"second beyond":      {file(action(0, 2, true)), false},
		"second of no copy":  {file(action(0, 2, false)), true},
		"second action":      {file(action(0, -1, false), action(3, 0, true)), false},
		"mount":              {mounted(pb.MountType_BIND, 1), true},
		"mount beyond":       {mounted(pb.MountType_BIND, 2), false},
		"cache beyond":       {mounted(pb.MountType_CACHE, 2), false},
		"mount of no inputs": {mounted(pb.MountType_TMPFS, 2), true},
	} {
		b := &builder{}
		op := b.add(t, c.op, b.add(t, source("a")), b.add(t, source("b")))
		b.add(t, &pb.Op{}, op)
		if _, err := Read(&b.def, &b.def); (err == nil) != c.taken {
			t.Errorf("%s: %v", name, err)
		}
	}
}
