package standins

import (
	"context"
	"os"
	"path/filepath"
	"reflect"
	"strings"
	"testing"

	"github.com/moby/buildkit/solver/pb"
	"llbm/daemon/internal/machine"
)

// program returns llbm, or skips the test.
func program(t *testing.T) *machine.Program {
	t.Helper()
	path := os.Getenv("LLBM")
	if path == "" {
		path, _ = filepath.Abs("../../../out/llbm-unproved")
	}
	if _, err := os.Stat(path); err != nil {
		t.Skip("llbm is not there: set LLBM, or make out/llbm-unproved")
	}
	found, err := machine.Find(context.Background(), path, machine.Limits{})
	if err != nil {
		t.Fatal(err)
	}
	return found
}

func TestNewWordsAreScriptsOfLlbm(t *testing.T) {
	llbm := program(t)
	for text, want := range read(t).Refused {
		if rules, err := Read([]byte(text)); err == nil {
			if err := (Set{Rules: rules}).Check(t.Context(), llbm); err == nil || err.Error() != want {
				t.Errorf("%q: %v, not %s", text, err, want)
			}
		}
	}
	rules, err := Read([]byte("words a =>\nwords b => true\n\nwords b => true\nwords c => go build\nwords d => mkdir"))
	if err != nil {
		t.Fatal(err)
	}
	if err := (Set{Rules: rules[:3]}).Check(t.Context(), llbm); err != nil {
		t.Error(err)
	}
	if err := (Set{Rules: rules}).Check(t.Context(), llbm); err == nil || err.Error() != "the new words are not a script, fault 71 go: line 5" {
		t.Error(err)
	}
	if err := (Set{Rules: rules[:1]}).Check(t.Context(), llbm); err != nil {
		t.Error(err)
	}
}

func TestAFaultOfAScriptIsSaidInWords(t *testing.T) {
	exec := &pb.ExecOp{Meta: &pb.Meta{Args: []string{"/bin/sh", "-c", "true && mkdir ; true;"}}}
	for has, want := range map[machine.ScriptFault]string{
		{Number: 71, Has: "a b"}: `"a b" is no command of llbm`, {Number: 72, Has: "1"}: "mkdir of llbm does not take these words",
		{Number: 73, Has: "20"}: "a script of llbm does not have ';', which its byte 20 is",
		{Number: 73, Has: "21"}: "a script of llbm does not end where a command is missing", {Number: 72, Has: "x"}: "this is no script of llbm",
	} {
		if got := Words(has, exec); !strings.HasPrefix(got, want) {
			t.Errorf("%+v: %s", has, got)
		}
	}
}

func TestCallsAreWordsBetweenSeparators(t *testing.T) {
	of := func(args ...string) [][]string { return Calls(&pb.ExecOp{Meta: &pb.Meta{Args: args}}) }
	want := [][]string{{"mkdir", "-p", "a"}, {"write", "a/b", "x"}, {"false"}, {"true"}}
	if got := of("/bin/sh", "-c", " mkdir  -p a && write a/b x ; false || true "); !reflect.DeepEqual(got, want) {
		t.Error(got)
	}
	if got := of("write", "/a", "b && c"); !reflect.DeepEqual(got, [][]string{{"write", "/a", "b && c"}}) {
		t.Error(got)
	}
	if got := Calls(&pb.ExecOp{}); got != nil {
		t.Error(got)
	}
}
