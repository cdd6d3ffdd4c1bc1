package comparison

import (
	"strings"
	"testing"

	"github.com/moby/buildkit/solver/pb"
	"llbm/daemon/internal/rules"
)

// on returns an action that works on an input or a result, and is an output.
func on(action *pb.FileAction, base pb.InputIndex, output pb.OutputIndex) *pb.FileAction {
	action.Input, action.Output = base, output
	return action
}

func fileOp(actions ...*pb.FileAction) *pb.Op {
	return &pb.Op{Op: &pb.Op_File{File: &pb.FileOp{Actions: actions}}}
}

func rm(path string) *pb.FileAction {
	return &pb.FileAction{SecondaryInput: -1, Action: &pb.FileAction_Rm{Rm: &pb.FileActionRm{Path: path}}}
}

// said returns the lines for a definition on the tree of its source, in which /a has another name, /b.
func said(t *testing.T, d *definition, result int) string {
	t.Helper()
	text := written(t, "s", []byte("d 0755 0 0 /\nf 0604 0 0 31 /a\nf 0604 0 0 31 /b\nd 0755 0 0 /d\n"))
	request := &Request{Sent: written(t, "sent", d.bytes(t, result)), Received: true, Rows: map[int]string{0: text}, Links: map[int][]string{0: {"a", "b"}}}
	found, err := compared(t, request, &Reply{Vertex: 2, Outputs: []string{text}}) // of the execution, where there is one
	endOf(t, found, err)
	return strings.Join(lines(found), "\n")
}

const (
	mode  = "vertex 1 action 0: /a has mode 0604 (here 0755): MkfileOver"
	links = "vertex 1 action 0: writes a file that has other names in its source: HardLinks"
)

// An action is only named if the result depends on what it makes, and if there is one in one of both.
func TestWhatNobodyReadsIsNotSaid(t *testing.T) {
	for name, one := range map[string]struct {
		make func(d *definition, s int) int
		want string
	}{
		"it is the result": {func(d *definition, s int) int { return d.add(t, file(1, mkfile("/a", 0o755, "2")), s) }, mode + "\n" + links},
		"an action reads it": {func(d *definition, s int) int {
			return d.add(t, file(1, mkdir("/n")), d.add(t, file(1, mkfile("/a", 0o755, "2")), s))
		}, mode + "\n" + links},
		"no action reads it": {func(d *definition, s int) int {
			return d.add(t, fileOp(on(mkdir("/n"), 0, 0)), s, d.add(t, file(1, mkfile("/a", 0o755, "2")), s))
		}, ""},
		"an action reads it that no output needs": {func(d *definition, s int) int {
			return d.add(t, fileOp(on(mkdir("/n"), 0, 0), on(mkdir("/m"), 1, -1)), s, d.add(t, file(1, mkfile("/a", 0o755, "2")), s))
		}, ""},
		"another output is read": {func(d *definition, s int) int {
			return d.add(t, file(1, mkdir("/n")), d.add(t, fileOp(on(mkfile("/a", 0o755, "2"), 0, 1), on(mkdir("/m"), 0, 0)), s))
		}, ""},
		"what nobody reads reads it": {func(d *definition, s int) int {
			a := d.add(t, file(1, mkfile("/a", 0o755, "2")), s)
			return d.add(t, fileOp(on(mkdir("/n"), 0, 0)), s, d.add(t, file(1, mkdir("/m")), a))
		}, ""},
		"a merge that nobody reads": {func(d *definition, s int) int {
			a := d.add(t, file(1, mkfile("/a", 0o755, "2")), s)
			return d.add(t, fileOp(on(mkdir("/n"), 0, 0)), s, d.add(t, merge(2), s, a))
		}, ""},
		"a merge is the result": {func(d *definition, s int) int {
			return d.add(t, merge(2), s, d.add(t, file(1, mkfile("/a", 0o755, "2")), s))
		}, mode + "\n" + links},
		"an execution reads it": {func(d *definition, s int) int {
			return d.add(t, fileOp(on(mkdir("/n"), 0, 0)), s, d.add(t, exec("true"), d.add(t, file(1, mkfile("/a", 0o755, "2")), s)))
		}, mode + "\n" + links + "\nvertex 2 action -1: its inputs differ, so what it makes in BuildKit is not known: Execution"},
		"the build fails in both": {func(d *definition, s int) int {
			return d.add(t, file(1, rm("/missing")), d.add(t, file(1, mkfile("/a", 0o755, "2")), s))
		}, ""},
		"the build fails here alone": {func(d *definition, s int) int {
			return d.add(t, file(1, mkdir("/b")), d.add(t, file(1, mkfile("/a", 0o755, "2")), s))
		}, mode + "\n" + links + "\nvertex 2 action 0: does not fail (here: /b is a file): MkdirOver"},
		"what it makes is removed": {func(d *definition, s int) int {
			return d.add(t, file(1, mkfile("/a", 0o755, "2"), rm("/a")), s)
		}, links},
	} {
		d := &definition{}
		if got := said(t, d, one.make(d, d.add(t, source("s")))); got != one.want {
			t.Errorf("%s: %q, and not %q", name, got, one.want)
		}
	}
}

// BuildKit's daemon fails for an output without a root only as it is read. llbm fails at once.
func TestARemovedRootThatNobodyReadsIsSaid(t *testing.T) {
	const want = "vertex 1 action 0: does not fail if what it leaves is not read (here it fails): RmRoot"
	for name, one := range map[string]struct {
		reader *pb.Op
		want   string
	}{
		"nothing reads it":                        {fileOp(on(mkdir("/n"), 0, 0)), want},
		"an action reads it":                      {fileOp(on(mkdir("/n"), 1, 0)), ""},
		"an action copies from it":                {fileOp(on(copied(1, "/", "/m"), 0, 0)), ""},
		"an action reads it that no output needs": {fileOp(on(mkdir("/n"), 0, 0), on(mkdir("/m"), 1, -1)), want},
	} {
		d := &definition{}
		s := d.add(t, source("s"))
		last := d.add(t, one.reader, s, d.add(t, file(1, rm("")), s))
		if got := said(t, d, last); got != one.want {
			t.Errorf("%s: %q, and not %q", name, got, one.want)
		}
	}
}

// A file that replaces one of the same size and time is not changed to a merge of BuildKit, unless the times are whole seconds.
func TestAFileOfTheSameSizeAndTimeIsSaidAtAMerge(t *testing.T) {
	const second = 1_000_000_000
	same := rules.Time{Size: 1, At: 5*second + 7}
	whole := rules.Time{Size: 1, At: 5 * second}
	replaced := func(d *definition, s int) int { return d.add(t, file(2, copied(1, "/b", "/a")), s, s) }
	merged := func(d *definition, a int) int {
		return d.add(t, merge(2), d.add(t, file(0, on(mkfile("/z", 0o644, ""), -1, 0))), a)
	}
	const want = "vertex 3 action -1: /a can be the file that was there before, which has its size and time: SameTime"
	for name, one := range map[string]struct {
		times map[string]rules.Time
		make  func(d *definition, s int) int
		want  string
	}{
		"a merge":       {map[string]rules.Time{"a": same, "b": same}, func(d *definition, s int) int { return merged(d, replaced(d, s)) }, want},
		"no merge":      {map[string]rules.Time{"a": same, "b": same}, replaced, ""},
		"no times":      {nil, func(d *definition, s int) int { return merged(d, replaced(d, s)) }, ""},
		"other times":   {map[string]rules.Time{"a": same, "b": {Size: 1, At: same.At + 1}}, func(d *definition, s int) int { return merged(d, replaced(d, s)) }, ""},
		"other sizes":   {map[string]rules.Time{"a": same, "b": {Size: 2, At: same.At}}, func(d *definition, s int) int { return merged(d, replaced(d, s)) }, ""},
		"whole seconds": {map[string]rules.Time{"a": whole, "b": whole}, func(d *definition, s int) int { return merged(d, replaced(d, s)) }, ""},
		"a merge of one": {map[string]rules.Time{"a": same, "b": same}, func(d *definition, s int) int {
			return d.add(t, merge(1), replaced(d, s))
		}, ""},
		"replaced in an op": {map[string]rules.Time{"a": same, "b": same}, func(d *definition, s int) int {
			return merged(d, d.add(t, file(1, onto(copied(0, "/a", "/f"), -1), copied(0, "/b", "/f")), s))
		}, ""},
		"replaced again": {map[string]rules.Time{"a": same, "b": same, "c": {Size: 2, At: 1}}, func(d *definition, s int) int {
			return merged(d, d.add(t, file(2, copied(1, "/c", "/a")), replaced(d, s), s))
		}, ""},
	} {
		d := &definition{}
		last := one.make(d, d.add(t, source("s")))
		text := written(t, "s", []byte("d 0755 0 0 /\nf 0644 0 0 31 /a\nf 0644 0 0 32 /b\nf 0644 0 0 3333 /c\n"))
		request := &Request{
			Sent: written(t, "sent", d.bytes(t, last)), Received: true, Rows: map[int]string{0: text}, Times: map[int]map[string]rules.Time{0: one.times},
		}
		found, err := compared(t, request)
		endOf(t, found, err)
		if got := strings.Join(lines(found), "\n"); got != one.want {
			t.Errorf("%s: %q, and not %q", name, got, one.want)
		}
	}
}

func onto(action *pb.FileAction, base pb.InputIndex) *pb.FileAction {
	action.Input = base
	return action
}
