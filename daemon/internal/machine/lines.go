package machine

import (
	"fmt"
	"strconv"
	"strings"
)

// All lines of llbm that are more than a tree's are parsed in this file: those of a record, of a session's `status`, of a graph and of
// a plan (docs/FORMATS.md), and those of faults (docs/FAULTS.md).

// Kinds of events.
const (
	Claim  = "claim"
	Step   = "step"
	Settle = "settle"
)

// An Event is a line of the record: `N KIND WORKER [VERTEX] -> REPLY`.
type Event struct {
	Line   string
	Number int // of a settle, from 1
	Kind   string
	Worker int
	Vertex int  // of a claim and a settle
	Failed bool // whether the vertex that is settled failed
	Ran    *Ran // of a step that ran a command
}

// A Ran is the reply `ran COMMAND STATUS` to a step.
type Ran struct{ Command, Status int }

// A Failure is how a vertex failed: `V failed action A fault N` or `V failed command C status S`.
type Failure struct {
	Vertex      int
	IsCommand   bool
	Place, Code int // the action and its fault, or the command and its status
}

// numbers returns the numbers in a line of a form, in which `#` is a number and `..` is what else may come after a space.
func numbers(line, form string) ([]int, bool) {
	words, forms := strings.Split(line, " "), strings.Split(form, " ")
	if last := len(forms) - 1; forms[last] == ".." && len(words) >= last {
		forms, words = forms[:last], words[:last]
	}
	if len(words) != len(forms) {
		return nil, false
	}
	var found []int
	for i, word := range words {
		if forms[i] != "#" {
			if word != forms[i] {
				return nil, false
			}
			continue
		}
		number, err := strconv.ParseUint(word, 10, 32)
		if err != nil {
			return nil, false
		}
		found = append(found, int(number))
	}
	return found, true
}

func parseEvent(line string) (Event, error) {
	before, reply, _ := strings.Cut(line, " -> ")
	e := Event{Line: line}
	if n, ok := numbers(before, "# claim # #"); ok && reply != "" {
		e.Kind, e.Worker, e.Vertex = Claim, n[1], n[2]
		return e, nil
	}
	if n, ok := numbers(before, "# step #"); ok && reply != "" {
		e.Kind, e.Worker = Step, n[1]
		if n, ok := numbers(reply, "ran # #"); ok {
			e.Ran = &Ran{n[0], n[1]}
		}
		return e, nil
	}
	if n, ok := numbers(before, "# settle #"); ok {
		e.Number, e.Kind, e.Worker = n[0], Settle, n[1]
		vertex, failed := numbers(reply, "# failed")
		if !failed {
			vertex, ok = numbers(reply, "# done")
		}
		if ok {
			e.Vertex, e.Failed = vertex[0], failed
			return e, nil
		}
	}
	return e, fmt.Errorf("llbm: %.80q is no line of a record", line)
}

// parseFailure reads a line of `status` of a vertex that failed.
func parseFailure(line string) (Failure, bool) {
	if n, ok := numbers(line, "# failed action # fault #"); ok {
		return Failure{Vertex: n[0], Place: n[1], Code: n[2]}, true
	}
	if n, ok := numbers(line, "# failed command # status #"); ok {
		return Failure{Vertex: n[0], IsCommand: true, Place: n[1], Code: n[2]}, true
	}
	return Failure{}, false
}

// parseFault returns the number of a fault, and the number after it, if there is one, or -1.
func parseFault(line string) (number, second int, ok bool) {
	if n, ok := numbers(line, "fault # # .."); ok {
		return n[0], n[1], true
	}
	n, ok := numbers(line, "fault # ..")
	if !ok {
		return 0, -1, false
	}
	return n[0], -1, true
}

// A ScriptFault is why the words of an execution are no script of llbm: the row of its entry, the fault's number, and what it has, which
// is the word that is no command (71), the number of a call (72) or a place in the text (73).
type ScriptFault struct {
	Row, Number int
	Has         string
}

// parseScript reads a line of a fault, `fault 89 ROW Script NUMBER HAS`.
func parseScript(line string) (ScriptFault, bool) {
	n, ok := numbers(line, "fault 89 # Script # ..")
	if !ok {
		return ScriptFault{}, false
	}
	const before = 5 // words
	has := strings.SplitN(line, " ", before+1)[before:]
	return ScriptFault{n[0], n[1], strings.Join(has, "")}, true
}

// A Place is an output of a vertex, `V.I`.
type Place struct{ Vertex, Output int }

// A Vertex is what llbm says of one of a graph: its entry, and the outputs that its inputs name.
type Vertex struct {
	Digest string
	Inputs []Place
}

// A Graph has llbm's numbers of the vertices of a definition: one is its place in the list.
type Graph struct {
	Vertices []Vertex
	Result   Place
	events   int // how many there are at most: a claim, the micro-steps and a settle of each vertex
}

// add reads a line of the look `graph`: `V KIND steps S outputs O inputs LIST` or `result V.I`.
func (g *Graph) add(line string) error {
	if text, ok := strings.CutPrefix(line, "result "); ok {
		place, ok := parsePlace(text)
		if ok && place.Vertex < len(g.Vertices) {
			g.Result = place
			return nil
		}
	}
	before, list, _ := strings.Cut(line, " inputs ")
	words := strings.SplitN(before, " ", 3) // the second one is the kind
	n, ok := numbers(words[0]+" "+words[len(words)-1], "# steps # outputs #")
	if !ok || n[0] != len(g.Vertices) || list == "" {
		return fmt.Errorf("llbm: %.80q is no line of a graph", line)
	}
	g.events += n[1] + 2
	one := Vertex{}
	for _, text := range strings.Fields(strings.TrimPrefix(list, "-")) {
		place, ok := parsePlace(text)
		if !ok || place.Vertex >= len(g.Vertices) {
			return fmt.Errorf("llbm: %.80q is no line of a graph", line)
		}
		one.Inputs = append(one.Inputs, place)
	}
	g.Vertices = append(g.Vertices, one)
	return nil
}

func parsePlace(text string) (Place, bool) {
	n, ok := numbers(strings.Replace(text, ".", " ", 1), "# #")
	if !ok {
		return Place{}, false
	}
	return Place{n[0], n[1]}, true
}

// name reads a line of the look `digests`, `V DIGEST`, of a vertex.
func (g *Graph) name(number int, line string) error {
	n, ok := numbers(line, "# ..")
	if !ok || n[0] != number || number >= len(g.Vertices) {
		return fmt.Errorf("llbm: %.80q is no line of digests", line)
	}
	_, g.Vertices[number].Digest, _ = strings.Cut(line, " ")
	return nil
}

// A Plan says how contents have to be given that llbm hands on.
type Plan struct {
	ByValue map[string]bool // the entries, by digest, that read contents which a token must not stand for
	Marks   bool            // whether some entry writes the byte 255
}

// parsePlan reads a plan: `V DIGEST reads WAY cause WHY marks LIST` for each vertex, and `marks yes` or `marks no`.
func parsePlan(text string) (*Plan, error) {
	plan := &Plan{ByValue: map[string]bool{}}
	lines := strings.Split(strings.TrimSuffix(text, "\n"), "\n")
	last := len(lines) - 1
	for number, line := range lines[:last] {
		words := strings.Split(line, " ")
		if len(words) < 8 || words[0] != strconv.Itoa(number) || words[2] != "reads" || words[3] != "value" && words[3] != "token" {
			return nil, fmt.Errorf("llbm: %.80q is no line of a plan", line)
		}
		if words[3] == "value" {
			plan.ByValue[words[1]] = true
		}
	}
	plan.Marks = lines[last] == "marks yes"
	if !plan.Marks && lines[last] != "marks no" {
		return nil, fmt.Errorf("llbm: %.80q is no end of a plan", lines[last])
	}
	return plan, nil
}
