package comparison

import (
	"context"
	"fmt"
	"io"
	"os"
	"path/filepath"
	"slices"
	"strings"
	"testing"

	"github.com/moby/buildkit/solver/pb"
	digest "github.com/opencontainers/go-digest"
	"llbm/daemon/internal/examples"
	"llbm/daemon/internal/rules"
)

// A definition is one under construction.
type definition struct {
	entries [][]byte
	digests []digest.Digest
}

// add adds an op on the first outputs of others, and returns its number.
func (d *definition) add(t testing.TB, op *pb.Op, inputs ...int) int {
	t.Helper()
	for _, k := range inputs {
		op.Inputs = append(op.Inputs, &pb.Input{Digest: d.digests[k]})
	}
	entry, err := op.Marshal()
	if err != nil {
		t.Fatal(err)
	}
	d.entries, d.digests = append(d.entries, entry), append(d.digests, digest.FromBytes(entry))
	return len(d.entries) - 1
}

// bytes returns the definition whose result is the first output of an op.
func (d *definition) bytes(t testing.TB, result int) []byte {
	t.Helper()
	d.add(t, &pb.Op{}, result)
	data, err := (&pb.Definition{Def: d.entries}).Marshal()
	if err != nil {
		t.Fatal(err)
	}
	return data
}

func source(name string) *pb.Op {
	return &pb.Op{Op: &pb.Op_Source{Source: &pb.SourceOp{Identifier: local + name}}}
}

func merge(count int) *pb.Op {
	op := &pb.MergeOp{}
	for i := range count {
		op.Inputs = append(op.Inputs, &pb.MergeInput{Input: pb.InputIndex(i)})
	}
	return &pb.Op{Op: &pb.Op_Merge{Merge: op}}
}

// file returns an op with some actions, each on the one before, of which the last one is the output.
func file(count int, actions ...*pb.FileAction) *pb.Op {
	for number, one := range actions {
		one.Output = -1
		if number > 0 {
			one.Input = pb.InputIndex(count + number - 1)
		}
	}
	actions[len(actions)-1].Output = 0
	return &pb.Op{Op: &pb.Op_File{File: &pb.FileOp{Actions: actions}}}
}

func mkfile(path string, mode int32, content string) *pb.FileAction {
	return &pb.FileAction{SecondaryInput: -1, Action: &pb.FileAction_Mkfile{Mkfile: &pb.FileActionMkFile{Path: path, Mode: mode, Data: []byte(content)}}}
}

func mkdir(path string) *pb.FileAction {
	return &pb.FileAction{SecondaryInput: -1, Action: &pb.FileAction_Mkdir{Mkdir: &pb.FileActionMkDir{Path: path, Mode: 0o755}}}
}

func copied(from pb.InputIndex, src, dest string) *pb.FileAction {
	return &pb.FileAction{SecondaryInput: from, Action: &pb.FileAction_Copy{Copy: &pb.FileActionCopy{Src: src, Dest: dest, Mode: -1}}}
}

func exec(words ...string) *pb.Op {
	mount := &pb.Mount{Dest: "/", Output: 0}
	return &pb.Op{Op: &pb.Op_Exec{Exec: &pb.ExecOp{Meta: &pb.Meta{Args: words, Cwd: "/"}, Mounts: []*pb.Mount{mount}}}}
}

// written writes a file of the test, and returns its path.
func written(t testing.TB, name string, data []byte) string {
	t.Helper()
	path := filepath.Join(t.TempDir(), name)
	if err := os.WriteFile(path, data, 0o600); err != nil {
		t.Fatal(err)
	}
	return path
}

// compared compares a request, with the replies to its questions, and returns the messages.
func compared(t testing.TB, request *Request, replies ...*Reply) ([]Message, error) {
	t.Helper()
	toChild, in := io.Pipe()
	fromChild, out := io.Pipe()
	ended := make(chan error, 1)
	go func() {
		err := Serve(context.Background(), NewTalk(toChild, out))
		_ = out.CloseWithError(io.EOF)
		_ = toChild.Close()
		ended <- err
	}()
	talk := NewTalk(fromChild, in)
	if err := talk.Write(request); err != nil {
		t.Fatal(err)
	}
	var found []Message
	for {
		var m Message
		if err := talk.Read(&m); err != nil {
			return found, <-ended
		}
		found = append(found, m)
		if m.Needs != nil || m.Execute != nil {
			if len(replies) == 0 {
				t.Fatal("a question without a reply")
			}
			if err := talk.Write(replies[0]); err != nil {
				t.Fatal(err)
			}
			replies = replies[1:]
		}
	}
}

// lines returns the lines of the steps, each with its place.
func lines(found []Message) []string {
	var out []string
	for _, m := range found {
		for _, line := range linesOf(m) {
			out = append(out, fmt.Sprintf("vertex %d action %d: %s", m.Step.Vertex, m.Step.Action, line))
		}
	}
	return out
}

func endOf(t testing.TB, found []Message, err error) *End {
	t.Helper()
	if err != nil || len(found) == 0 || found[len(found)-1].End == nil {
		t.Fatal(found, err)
	}
	return found[len(found)-1].End
}

func TestEachLeastExampleNamesItsRule(t *testing.T) {
	all, err := examples.All()
	if err != nil {
		t.Fatal(err)
	}
	for _, one := range all {
		request := &Request{Sent: written(t, "sent", one.Definition), Sources: map[string]string{}, Result: true, Tree: true, Folder: t.TempDir(), Paths: 20}
		for name, text := range one.Trees {
			request.Sources[name] = written(t, name, []byte(text))
		}
		found, err := compared(t, request)
		end := endOf(t, found, err)
		named := false
		for _, m := range found {
			for _, line := range linesOf(m) {
				named = named || slices.Contains(line.Notes, one.Rule)
			}
		}
		if !named && (one.BuildKit != nil || one.LLBM != nil) || end.Agree && fmt.Sprint(one.BuildKit) != fmt.Sprint(one.LLBM) {
			t.Errorf("%s, %s: %q, %+v", one.Rule, one.Shows, lines(found), end)
		}
		text, _ := os.ReadFile(end.Tree)
		if got := strings.Split(strings.TrimSuffix(string(text), "\n"), "\n")[1:]; one.BuildKit != nil && !slices.Equal(got, one.BuildKit) {
			t.Errorf("%s, %s: %q, and not %q", one.Rule, one.Shows, got, one.BuildKit)
		}
		if (one.BuildKit == nil) != (end.Fails != "") {
			t.Errorf("%s, %s: fails: %q", one.Rule, one.Shows, end.Fails)
		}
	}
}

func linesOf(m Message) []rules.Line {
	if m.Step == nil {
		return nil
	}
	return m.Step.Lines
}

// Vertices have the numbers of who asks, if the request has them.
func TestVerticesHaveTheNumbersOfTheRequest(t *testing.T) {
	d := &definition{}
	first, second := d.add(t, source("s")), d.add(t, source("t"))
	last := d.add(t, file(1, mkfile("/a", 0o755, "2")), second)
	merged := d.add(t, &pb.Op{Op: &pb.Op_Merge{Merge: &pb.MergeOp{Inputs: []*pb.MergeInput{{Input: 0}, {Input: 1}}}}}, last, first)
	text := written(t, "s", []byte("d 0755 0 0 /\nf 0604 0 0 31 /a\n"))
	request := &Request{Sent: written(t, "sent", d.bytes(t, merged)), Sources: map[string]string{"s": text, "t": text}}
	for _, one := range []struct {
		numbered []int
		want     string
	}{{nil, "vertex 1 action 0: "}, {[]int{0, 1, 2, 3}, "vertex 2 action 0: "}} {
		request.Numbered = one.numbered
		found, err := compared(t, request)
		endOf(t, found, err)
		if got := lines(found); len(got) == 0 || !strings.HasPrefix(got[0], one.want) {
			t.Errorf("%v: %q", one.numbered, got)
		}
	}
	request.Numbered = []int{1, 2, 0}
	if _, err := compared(t, request); err == nil {
		t.Error("the result has no number")
	}
}

// What is run is made by the trees of the sources, and then nothing differs.
func TestWhatRunsIsMadeByTheTrees(t *testing.T) {
	d := &definition{}
	last := d.add(t, file(1, mkfile("/a", 0o755, "2")), d.add(t, source("s")))
	request := &Request{
		Sent: written(t, "sent", d.bytes(t, last)), Rewrite: true, Received: true,
		Rows: map[int]string{0: written(t, "s", []byte("d 0755 0 0 /\nf 0604 0 0 31 /a\n"))},
	}
	found, err := compared(t, request)
	endOf(t, found, err)
	if got := lines(found); len(got) > 0 || found[0].Run == nil || len(found[0].Run.Rows) != 1 {
		t.Error(got)
	}
	run := &pb.Definition{}
	if err := run.Unmarshal(found[0].Run.Definition); err != nil || len(run.Def) != len(d.entries) {
		t.Error(err)
	}
}

// A definition that was rewritten wrongly differs from the one that was sent.
func TestAWrongRewritingIsADifference(t *testing.T) {
	text := written(t, "s", []byte("d 0755 0 0 /\nf 0644 0 0 31 /a\nf 0644 0 0 31 /b\n"))
	rm := func(path string) *pb.Op {
		return file(1, &pb.FileAction{SecondaryInput: -1, Action: &pb.FileAction_Rm{Rm: &pb.FileActionRm{Path: path, AllowWildcard: true}}})
	}
	of := func(op *pb.Op) string {
		d := &definition{}
		return written(t, "definition", d.bytes(t, d.add(t, op, d.add(t, source("s")))))
	}
	found, err := compared(t, &Request{Sent: of(rm(`/*`)), Run: of(rm("/a*")), Received: true, Sources: map[string]string{"s": text}})
	endOf(t, found, err)
	if got := lines(found); len(got) != 1 || got[0] != "vertex 1 action 0: /b is missing (here a file): Rewriting" {
		t.Errorf("%q", got)
	}
	more := of(file(1, rm("/a").GetFile().Actions[0], mkdir("/n")))
	found, err = compared(t, &Request{Sent: of(rm(`/a`)), Run: more, Received: true, Sources: map[string]string{"s": text}})
	endOf(t, found, err)
	if got := lines(found); len(got) != 1 || got[0] != "vertex 1 action -1: /n is missing (here a directory): Rewriting" {
		t.Errorf("%q", got)
	}
}

// An execution's outputs are asked for, and its inputs in BuildKit if they differ.
func TestExecutionsAreAskedFor(t *testing.T) {
	d := &definition{}
	s := d.add(t, source("s"))
	over := d.add(t, file(1, mkfile("/a", 0o755, "1")), s)
	ran := d.add(t, exec("true"), over)
	last := d.add(t, file(1, mkfile("/b", 0o600, "2")), ran)
	tree := written(t, "s", []byte("d 0755 0 0 /\nf 0604 0 0 31 /a\n"))
	here := written(t, "here", []byte("d 0755 0 0 /\nf 0755 0 0 31 /a\nf 0644 0 0 31 /b\n"))
	there := written(t, "there", []byte("d 0755 0 0 /\nf 0604 0 0 31 /a\nf 0644 0 0 31 /b\n"))
	sent := written(t, "sent", d.bytes(t, last))
	request := &Request{Sent: sent, Sources: map[string]string{"s": tree}, Executes: true, Result: true, Folder: t.TempDir(), Paths: 20}
	found, err := compared(t, request, &Reply{Vertex: 2, Outputs: []string{here}}, &Reply{Vertex: 2, Outputs: []string{there}})
	if end := endOf(t, found, err); end.Agree || end.Words != "the results differ at 2 paths" {
		t.Error(end)
	}
	got := strings.Join(lines(found), "\n")
	if !strings.Contains(got, "vertex 1 action 0: /a has mode 0604 (here 0755): MkfileOver") ||
		!strings.Contains(got, "vertex 3 action 0: /b has mode 0644 (here 0600): MkfileOver") {
		t.Error(got)
	}
	request.Received, request.Executes, request.Result = true, false, false
	found, err = compared(t, request, &Reply{Vertex: 2, Outputs: []string{here}})
	endOf(t, found, err)
	if got := lines(found); len(got) != 2 || got[1] != "vertex 2 action -1: "+Unknown+": Execution" {
		t.Errorf("%q", got)
	}
	for _, reply := range []*Reply{{Vertex: 2, Failed: true}, {Vertex: 2, Unknown: true}} {
		if found, err := compared(t, request, reply); endOf(t, found, err) == nil {
			t.Error(found)
		}
	}
}

func TestABadRequestIsRefused(t *testing.T) {
	d := &definition{}
	sent := written(t, "sent", d.bytes(t, d.add(t, file(1, mkdir("/a")), d.add(t, source("s")))))
	for name, request := range map[string]*Request{
		"no definition":        {Sent: written(t, "sent", []byte("x"))},
		"a source is missing":  {Sent: sent},
		"another definition":   {Sent: sent, Run: written(t, "run", nil), Sources: map[string]string{"s": written(t, "s", []byte("d 0755 0 0 /\n"))}},
		"a tree without order": {Sent: sent, Sources: map[string]string{"s": written(t, "s", []byte("d 0755 0 0 /\nf 0644 0 0 - /b\nf 0644 0 0 - /a\n"))}},
	} {
		if found, err := compared(t, request); err == nil {
			t.Error(name, found)
		}
	}
	if err := Serve(context.Background(), NewTalk(strings.NewReader("{"), io.Discard)); err == nil {
		t.Error("a line that is no JSON is taken")
	}
}
