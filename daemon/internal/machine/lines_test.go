package machine

import (
	"reflect"
	"strings"
	"testing"
)

func TestEventsAreRead(t *testing.T) {
	for line, want := range map[string]Event{
		"1 claim 0 2 -> exec 6":      {Kind: Claim, Vertex: 2},
		"100 claim 63 65535 -> file": {Kind: Claim, Worker: 63, Vertex: 65535},
		"12 step 3 -> ran 1 0":       {Kind: Step, Worker: 3, Ran: &Ran{1, 0}},
		"13 step 3 -> ran 17 255":    {Kind: Step, Worker: 3, Ran: &Ran{17, 255}},
		"9 step 0 -> acted 0":        {Kind: Step},
		"9 step 0 -> fault 0 21":     {Kind: Step},
		"9 step 0 -> a -> b":         {Kind: Step},
		"14 settle 0 -> 2 failed":    {Number: 14, Kind: Settle, Vertex: 2, Failed: true},
		"15 settle 1 -> 12 done":     {Number: 15, Kind: Settle, Worker: 1, Vertex: 12},
	} {
		want.Line = line
		if got, err := parseEvent(line); err != nil || !reflect.DeepEqual(got, want) {
			t.Errorf("%q: %+v %v", line, got, err)
		}
	}
	for _, line := range []string{
		"", "end", "1 claim 0 -> x", "1 step 0 1 -> x", "1 step x -> y", "1 back 0 -> y", "1 step 0", "1 settle 0 -> x", "1 settle 0 -> 1 failed 2",
		"1  step 0 -> read", "-1 step 0 -> read", "1 step 4294967296 -> read", "1 claim 0 1",
	} {
		if got, err := parseEvent(line); err == nil {
			t.Errorf("%q: %+v", line, got)
		}
	}
}

func TestFailuresAreRead(t *testing.T) {
	for line, want := range map[string]Failure{
		"7 failed action 1 fault 21":   {Vertex: 7, Place: 1, Code: 21},
		"0 failed command 3 status 64": {IsCommand: true, Place: 3, Code: 64},
	} {
		if got, ok := parseFailure(line); !ok || got != want {
			t.Errorf("%q: %+v %t", line, got, ok)
		}
	}
	for _, line := range []string{"", "7 done", "7 running 0", "7 failed", "7 failed action 1 fault", "7 failed action x fault 21", "7 failed command 1 fault 1"} {
		if got, ok := parseFailure(line); ok {
			t.Errorf("%q: %+v", line, got)
		}
	}
}

func TestFaultsAreRead(t *testing.T) {
	for line, want := range map[string][2]int{
		"fault 123": {123, -1}, "fault 88 3 Source": {88, 3}, "fault 121 context": {121, -1}, "fault 171 141": {171, 141}, "fault 89 0 Script 71 ls": {89, 0},
	} {
		if number, second, ok := parseFault(line); !ok || number != want[0] || second != want[1] {
			t.Errorf("%q: %d %d %t", line, number, second, ok)
		}
	}
	for _, line := range []string{"", "fault", "fault x", "fault -1", "a fault 1", "faults 1"} {
		if number, second, ok := parseFault(line); ok {
			t.Errorf("%q: %d %d", line, number, second)
		}
	}
}

func TestFaultsOfScriptsAreRead(t *testing.T) {
	for line, want := range map[string]ScriptFault{
		"fault 89 1 Script 71 go build": {1, 71, "go build"}, "fault 89 0 Script 72 3": {0, 72, "3"}, "fault 89 12 Script 71 ": {12, 71, ""},
		"fault 89 1 Script 71": {1, 71, ""},
	} {
		if got, ok := parseScript(line); !ok || got != want {
			t.Errorf("%q: %+v %t", line, got, ok)
		}
	}
	for _, line := range []string{"", "fault 89 1 Output", "fault 88 1 Script 71 go", "llbm: fault 89 1 Script 71 go", "fault 89 x Script 71 go"} {
		if got, ok := parseScript(line); ok {
			t.Errorf("%q: %+v", line, got)
		}
	}
}

func TestGraphsAreRead(t *testing.T) {
	read := func(text string) (*Graph, error) {
		g := &Graph{}
		for _, line := range strings.Split(text, "\n") {
			if err := g.add(line); err != nil {
				return nil, err
			}
		}
		return g, nil
	}
	g, err := read("0 source steps 1 outputs 1 inputs -\n1 exec steps 2 outputs 2 inputs 0.0 0.0\n2 merge steps 1 outputs 1 inputs 1.1\nresult 2.0")
	want := &Graph{[]Vertex{{}, {Inputs: []Place{{0, 0}, {0, 0}}}, {Inputs: []Place{{1, 1}}}}, Place{2, 0}, 10}
	if err != nil || !reflect.DeepEqual(g, want) {
		t.Errorf("%+v %v", g, err)
	}
	if g.name(0, "0 sha256:a") != nil || g.name(2, "2 sha256:c") != nil || g.Vertices[0].Digest != "sha256:a" || g.Vertices[2].Digest != "sha256:c" {
		t.Error(g)
	}
	for _, line := range []string{"", "0 sha256:a", "3 sha256:d", "fault 173 1"} {
		if g.name(1, line) == nil {
			t.Errorf("%q", line)
		}
	}
	for _, text := range []string{
		"", "result 0.0", "1 source steps 1 outputs 1 inputs -", "0 merge steps 1 outputs 1 inputs 0.0", "0 source steps 1 outputs 1 inputs", "fault 173 1",
		"0 source steps 1 outputs 1 inputs -\nresult 0", "0 source steps 1 outputs 1 inputs -\nresult 1.0",
		"0 source steps 1 outputs 1 inputs -\n1 merge steps 1 inputs 0",
	} {
		if g, err := read(text); err == nil {
			t.Errorf("%q: %+v", text, g)
		}
	}
}

func TestPlansAreRead(t *testing.T) {
	const lines = "0 sha256:a reads value cause - marks -\n1 sha256:b reads value cause digest marks -\n2 sha256:c reads token cause - marks 0 2\n"
	plan, err := parsePlan(lines + "marks yes\n")
	if err != nil || !plan.Marks || !reflect.DeepEqual(plan.ByValue, map[string]bool{"sha256:a": true, "sha256:b": true}) {
		t.Errorf("%+v %v", plan, err)
	}
	if plan, err := parsePlan("0 sha256:a reads token cause - marks -\nmarks no\n"); err != nil || plan.Marks || len(plan.ByValue) != 0 {
		t.Errorf("%+v %v", plan, err)
	}
	for _, text := range []string{
		"", lines, "marks maybe\n", "1 sha256:a reads token cause - marks -\nmarks no\n", "0 sha256:a reads what cause - marks -\nmarks no\n",
	} {
		if plan, err := parsePlan(text); err == nil {
			t.Errorf("%q: %+v", text, plan)
		}
	}
}
