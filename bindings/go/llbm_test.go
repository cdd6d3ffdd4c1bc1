//go:build cgo

package llbm

import (
	"crypto/sha256"
	"errors"
	"fmt"
	"os"
	"path/filepath"
	"strings"
	"sync"
	"testing"
)

func example(t *testing.T, name string) []byte {
	bytes, err := os.ReadFile(filepath.Join("..", "..", "examples", name))
	if err != nil {
		t.Fatal(err)
	}
	return bytes
}

func machine(t *testing.T) *Machine {
	t.Helper()
	m, err := New()
	if err != nil {
		t.Fatal(err)
	}
	t.Cleanup(m.Close)
	return m
}

// A frontend's definition, marshaled here: an op that makes the file /a, and the op that is the result. With BuildKit's
// client, `def, err := state.Marshal(ctx)` and `def.ToPB().Marshal()` return such bytes.
func marshal(data string) []byte {
	mkfile := message(1, "/a") + varint(2, 0o644) + message(3, data) + varint(5, 1<<64-1)
	action := varint(1, 1<<64-1) + varint(2, 1<<64-1) + message(5, mkfile)
	file := message(4, message(2, action))
	input := message(1, fmt.Sprintf("sha256:%x", sha256.Sum256([]byte(file))))
	return []byte(message(1, file) + message(1, message(1, input)))
}

// The fields of protobuf: a number, and a length with its bytes.
func number(n uint64) string {
	if n < 128 {
		return string([]byte{byte(n)})
	}
	return string([]byte{byte(n) | 128}) + number(n>>7)
}

func varint(field int, n uint64) string { return number(uint64(field)<<3) + number(n) }

func message(field int, bytes string) string {
	return number(uint64(field)<<3|2) + number(uint64(len(bytes))) + bytes
}

func TestMarshaled(t *testing.T) {
	m := machine(t)
	result, err := m.Run(marshal("hi"))
	if err != nil {
		t.Fatal(err)
	}
	if want := "d 0755 0 0 /\nf 0644 0 0 6869 /a\n"; result != want {
		t.Errorf("the tree is %q, not %q", result, want)
	}
}

func TestFindings(t *testing.T) {
	m := machine(t)
	if found, err := m.Findings(example(t, "tour.definition")); err != nil || len(found) != 0 {
		t.Errorf("the tour has faults: %q, %v", found, err)
	}
	if found, err := m.Findings([]byte{7}); err != nil || len(found) != 1 || found[0] != "fault 81 3" {
		t.Errorf("a byte has the faults %q, %v", found, err)
	}
}

func TestPlanAndMatches(t *testing.T) {
	m := machine(t)
	definition := example(t, "tour.definition")
	plan, err := m.Plan(definition)
	if err != nil || strings.Count(plan, " reads value ") != 3 || !strings.HasSuffix(plan, "\nmarks no\n") {
		t.Errorf("the plan is %q, %v", plan, err)
	}
	matches, err := m.Matches(definition, definition)
	if err != nil || strings.Count(matches, " matches ") != 3 || strings.Contains(matches, " matches -") {
		t.Errorf("the matches are %q, %v", matches, err)
	}
}

func TestScript(t *testing.T) {
	m := machine(t)
	for text, want := range map[string]string{"cp /a /b && true": "", "gzip /a": "fault 71 gzip", "cp /a": "fault 72 0", "": "fault 73 0"} {
		if line, err := m.Script(text); err != nil || line != want {
			t.Errorf("%q has the fault %q, %v", text, line, err)
		}
	}
}

func TestResult(t *testing.T) {
	m := machine(t)
	if err := m.AddLocal("source", string(example(t, "tour.tree"))); err != nil {
		t.Fatal(err)
	}
	definition, err := m.Assemble(string(example(t, "tour.text")))
	if err != nil || string(definition) != string(example(t, "tour.definition")) {
		t.Fatal("the text is assembled to other bytes", err)
	}
	text, err := m.Disassemble(definition)
	if err != nil || text != string(example(t, "tour.text")) {
		t.Error("another text", err)
	}
	if ops, err := m.Ops(definition); err != nil || ops != text {
		t.Error("other ops", err)
	}
	result, err := m.Run(definition)
	if err != nil || !strings.Contains(result, "f 0644 0 0 4c414e473d430a /out/env\n") {
		t.Errorf("the result is %q, %v", result, err)
	}
}

func TestClientsDefinition(t *testing.T) {
	m := machine(t)
	definition := example(t, "from-buildkit/merge/definition")
	graph, err := m.Show(definition)
	if err != nil {
		t.Fatal(err)
	}
	result, err := m.Run(definition)
	if err != nil || graph+result != string(example(t, "from-buildkit/merge/printed")) {
		t.Errorf("it prints %q, %v", graph+result, err)
	}
}

func TestFaults(t *testing.T) {
	m := machine(t)
	var fault *Fault
	if _, err := m.Run([]byte{1}); !errors.As(err, &fault) || fault.Status != 2 || fault.Number != 81 {
		t.Error("bad bytes", err)
	}
	if _, err := m.Run(example(t, "tour.definition")); !errors.As(err, &fault) || fault.Number != 121 {
		t.Error("no local tree", err)
	}
	if _, _, err := m.Line("status"); !errors.As(err, &fault) || fault.Status != 4 {
		t.Error("no session", err)
	}
}

func TestWorkers(t *testing.T) {
	m := machine(t)
	if err := m.AddLocal("source", string(example(t, "tour.tree"))); err != nil {
		t.Fatal(err)
	}
	for _, workers := range []int{0, 65, 1 << 32, 1<<32 + 1, -1} {
		var fault *Fault
		if err := m.Open(example(t, "tour.definition"), workers); !errors.As(err, &fault) || fault.Number != 122 {
			t.Error(workers, err)
		}
	}
}

func TestVersion(t *testing.T) {
	version, err := Version()
	if err != nil || !strings.HasPrefix(version, "llbm 1.") {
		t.Errorf("the version is %q, %v", version, err)
	}
	if !strings.Contains(version, ", proved with ") && !strings.Contains(version, ", not proved, ") {
		t.Errorf("the version does not say whether it is proved: %q", version)
	}
}

func TestSecondClose(t *testing.T) {
	m := machine(t)
	m.Close()
	m.Close()
}

func TestSession(t *testing.T) {
	m := machine(t)
	if err := m.AddLocal("source", string(example(t, "tour.tree"))); err != nil {
		t.Fatal(err)
	}
	if err := m.Open(example(t, "tour.definition"), 2); err != nil {
		t.Fatal(err)
	}
	replies := ""
	for _, line := range strings.Split(strings.TrimSpace(string(example(t, "tour.commands"))), "\n") {
		reply, goesOn, err := m.Line(line)
		if err != nil || goesOn == (line == "quit") {
			t.Fatal(line, goesOn, err)
		}
		replies += reply
	}
	if replies != string(example(t, "tour.answers")) {
		t.Errorf("the replies are %q", replies)
	}
}

func TestGoroutines(t *testing.T) {
	m := machine(t)
	var all sync.WaitGroup
	for i := 0; i < 8; i++ {
		all.Add(1)
		go func() {
			defer all.Done()
			if _, err := m.Run(marshal("hi")); err != nil {
				t.Error(err)
			}
		}()
	}
	all.Wait()
}
