package comparison

import (
	"fmt"
	"slices"
	"strings"

	"github.com/moby/buildkit/solver/pb"
	"llbm/daemon/internal/rules"
)

// static says what can be said of a vertex without its trees, and returns whether BuildKit's daemon dies of the vertex as a whole.
// llbmd says this itself.
func (s *session) static(v int) (dies bool, err error) {
	var said []rules.Step
	for _, one := range rules.Static(s.sent.Vertices[v].Op) {
		if one.Action >= 0 {
			continue // it is said where the action is done
		}
		if !s.request.Received {
			said = append(said, one)
		}
		if rules.Breaks(one.Lines[0].Notes[0]) {
			dies = true
			s.dies(v, one)
		}
	}
	return dies, s.steps(v, said)
}

// dies notes that BuildKit's daemon dies of a vertex, or of an action of it.
func (s *session) dies(v int, step rules.Step) {
	place := fmt.Sprintf("vertex %d", v)
	if step.Action >= 0 {
		place = fmt.Sprintf("%s action %d", place, step.Action)
	}
	s.broken = true
	s.failsAt(v, place, step.Lines[0].String())
}

// outside says what is not about a vertex by itself: that a result has many layers, and which inputs of entries that are no vertices
// name no entry, of which BuildKit's daemon dies. llbmd says this itself.
func (s *session) outside(sent *pb.Definition) error {
	if s.request.Received {
		return nil
	}
	if v := rules.Deep(s.sent.Vertices); v >= 0 {
		if err := s.steps(v, []rules.Step{rules.StepOfNote(rules.Depth)}); err != nil {
			return err
		}
	}
	for _, one := range rules.UnknownInputs(sent) {
		s.broken = true
		if s.why == "" {
			s.why = one.String()
		}
		step := &Step{Vertex: -1, Row: -1, Action: -1, Lines: []rules.Line{one}}
		if err := s.talk.Write(Message{Step: step}); err != nil {
			return err
		}
	}
	return nil
}

// steps says steps of a vertex.
func (s *session) steps(v int, steps []rules.Step) error {
	for _, one := range steps {
		step := &Step{Vertex: v, Row: s.sent.Vertices[v].Row, Action: one.Action, Lines: s.chosen(one.Lines), More: one.More}
		s.held = append(s.held, step)
	}
	if s.request.Received && !s.runs && len(s.held) < mostHeld {
		return nil
	}
	return s.sayHeld()
}

// mostHeld is how many steps are held back at most.
const mostHeld = 1000

// sayHeld says the steps that were held back. Without an execution they are held back up to the end: if the build fails in both,
// nobody sees what was made otherwise before.
func (s *session) sayHeld() error {
	for _, step := range s.held {
		if err := s.talk.Write(Message{Step: step}); err != nil {
			return err
		}
	}
	s.held = nil
	return nil
}

// failsInBoth is whether neither makes the result. Of an output without a root it is not known.
func (s *session) failsInBoth() bool {
	one := &s.states[s.sent.Result]
	return len(one.there) == 0 && len(one.here) == 0 && !one.unknown && !s.broken && !slices.ContainsFunc(s.held, (*Step).isOfRoot)
}

// isOfRoot is whether a step removes a root.
func (s *Step) isOfRoot() bool {
	return slices.ContainsFunc(s.Lines, func(line rules.Line) bool { return slices.Contains(line.Notes, rules.RmRoot.String()) })
}

// chosen returns the first lines with the same rules. The first of these counts those that are left out.
func (s *session) chosen(lines []rules.Line) []rules.Line {
	most := max(1, s.request.Paths)
	var out []rules.Line
	first, count := map[string]int{}, map[string]int{}
	for _, one := range lines {
		key := strings.Join(one.Notes, " ")
		if count[key]++; count[key] > most {
			out[first[key]].More++
			continue
		}
		if count[key] == 1 {
			first[key] = len(out)
		}
		out = append(out, one)
	}
	return slices.Clip(out)
}

// mostDiffering is how many paths of results are counted.
const mostDiffering = 1000

// end says whether the results agree, if this is asked for.
func (s *session) end() error {
	if s.failsInBoth() && s.request.Received {
		s.held = nil
	}
	if err := s.sayHeld(); err != nil {
		return err
	}
	end := &End{}
	if !s.request.Result && !s.request.Tree {
		return s.talk.Write(Message{End: end})
	}
	one, index := &s.states[s.sent.Result], s.sent.Output
	var there, here *rules.Node
	if index < len(one.there) && !s.broken {
		there = one.there[index].Tree()
	}
	if index < len(one.here) {
		here = one.here[index]
	}
	if err := s.checkMade(here); err != nil {
		return err
	}
	var err error
	if end.Words, end.Agree, err = s.verdict(there, here, one.unknown); err != nil {
		return err
	}
	if there == nil {
		end.Fails = s.why
	} else if s.request.Tree {
		files, err := s.write([]*rules.Ref{one.there[index]})
		if err != nil {
			return err
		}
		end.Tree = files[0]
	}
	return s.talk.Write(Message{End: end})
}

// checkMade refuses a result of llbm that its rules here do not make: then the comparison is worth nothing.
func (s *session) checkMade(here *rules.Node) error {
	if s.request.Made == "" || here == nil {
		return nil
	}
	made, err := s.read(s.request.Made, rules.Reader{Near: here})
	if err == nil && !rules.Equal(made, here) {
		err = refuse("the result is not what the rules of docs/FORMATS.md make")
	}
	return err
}

// verdict returns in words whether two results agree.
func (s *session) verdict(there, here *rules.Node, unknown bool) (string, bool, error) {
	but := ""
	if s.runs {
		but = ", but for what executions do"
	}
	switch {
	case s.broken && here != nil:
		return "the results differ: BuildKit's daemon breaks, here is a result", false, nil
	case s.broken:
		return "the results differ: BuildKit's daemon breaks, here is none", false, nil
	case there == nil && unknown:
		return "it is not known what BuildKit's result is", false, nil
	case there == nil && here == nil:
		return "both fail" + but, true, nil
	case here == nil:
		return "BuildKit has a result, here is none", false, nil
	case there == nil:
		return "BuildKit fails, here is a result", false, nil
	}
	found, err := rules.Differences(s.ctx, there, here, mostDiffering+1)
	switch {
	case err != nil:
		return "", false, err
	case len(found) == 0:
		return "the results agree" + but, true, nil
	case len(found) == 1:
		return "the results differ at 1 path", false, nil
	case len(found) > mostDiffering:
		return "the results differ at more than 1,000 paths", false, nil
	}
	return fmt.Sprintf("the results differ at %d paths", len(found)), false, nil
}
