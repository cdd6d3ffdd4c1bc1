package comparison

import (
	"errors"
	"fmt"
	"os"
	"path/filepath"
	"strconv"

	"llbm/daemon/internal/rules"
)

// Unknown are the words for an execution whose inputs differ.
const Unknown = "its inputs differ, so what it makes in BuildKit is not known"

// errLater is that it is not known yet what an execution made.
var errLater = errors.New("later")

// execution takes what an execution made. Where its inputs differ, that is what it makes here; in BuildKit it is not known,
// unless it can be done on these inputs.
func (s *session) execution(v int) error {
	it, one := &s.sent.Vertices[v], &s.states[v]
	exec := it.Op.GetExec()
	there, here := s.inputs(v)
	one.unknown = s.isUnknown(v)
	if here == nil && there == nil {
		return nil
	}
	err := s.follows(v, here)
	if err != nil {
		return err
	}
	var outputs []*rules.Node
	if here != nil {
		if outputs, err = s.outputs(v, nil, here); err != nil {
			return err
		}
		one.here = outputs
	}
	if there == nil {
		return nil
	}
	if here == nil || !agree(there, here) {
		if !s.request.Executes {
			one.unknown = true
			return s.steps(v, []rules.Step{{Action: -1, Lines: []rules.Line{{Words: Unknown, Notes: []string{rules.Execution}}}}})
		}
		var files []string
		if files, err = s.write(there); err != nil {
			return err
		}
		if outputs, err = s.outputs(v, files, trees(there)); err != nil {
			return err
		}
	}
	if outputs == nil {
		one.unknown = one.unknown || s.isUnknown(v)
		s.fails(v, "its script fails")
		return nil
	}
	one.there = rules.Left(exec, there, outputs)
	return nil
}

func (s *session) fails(v int, why string) { s.failsAt(v, fmt.Sprintf("vertex %d", v), why) }

func (s *session) failsAt(v int, place, why string) {
	if s.why == "" && !s.states[v].unknown {
		s.why = place + ": " + why
	}
}

func agree(there []*rules.Ref, here []*rules.Node) bool {
	if len(there) != len(here) {
		return false
	}
	for i := range there {
		if !rules.Equal(there[i].Tree(), here[i]) {
			return false
		}
	}
	return true
}

func trees(refs []*rules.Ref) []*rules.Node {
	var out []*rules.Node
	for _, one := range refs {
		out = append(out, one.Tree())
	}
	return out
}

// outputs asks for the outputs of an execution: as it was done here, or on the inputs in some files. They are nil if it failed.
func (s *session) outputs(v int, files []string, inputs []*rules.Node) ([]*rules.Node, error) {
	it := &s.sent.Vertices[v]
	exec := it.Op.GetExec()
	if !s.states[v].needed && files == nil {
		out := []*rules.Node{}
		for range rules.Outputs(exec) {
			out = append(out, rules.Empty())
		}
		return out, nil
	}
	reply, err := s.ask(v, files)
	if err != nil {
		return nil, err
	}
	if reply.Later && files == nil {
		return nil, errLater
	}
	if reply.Unknown {
		s.states[v].unknown = true
		return nil, nil
	}
	if reply.Failed {
		return nil, nil
	}
	if len(reply.Outputs) != rules.Outputs(exec) {
		return nil, refuse("vertex %d has %d outputs, and not %d", reply.Vertex, rules.Outputs(exec), len(reply.Outputs))
	}
	near, out := rules.Bases(exec, inputs), []*rules.Node{}
	for number, file := range reply.Outputs {
		t, err := s.read(file, rules.Reader{Near: near[number]})
		if err != nil {
			return nil, err
		}
		out = append(out, t)
	}
	return out, nil
}

// ask asks what an execution made, or makes of inputs.
func (s *session) ask(v int, files []string) (*Reply, error) {
	row := s.sent.Vertices[v].Row
	question := &Question{Vertex: s.inRun[row], Row: row, Inputs: files}
	message := Message{Needs: question}
	if files != nil {
		message = Message{Execute: question}
	}
	if err := s.talk.Write(message); err != nil {
		return nil, err
	}
	reply := &Reply{}
	if err := s.talk.Read(reply); err != nil {
		return nil, fmt.Errorf("no reply: %w", err)
	}
	if reply.Vertex != question.Vertex {
		return nil, refuse("the reply is of vertex %d, and not of %d", reply.Vertex, question.Vertex)
	}
	return reply, nil
}

// write writes trees into files of the folder.
func (s *session) write(refs []*rules.Ref) ([]string, error) {
	files := []string{}
	for _, one := range refs {
		name := filepath.Join(s.request.Folder, "tree-"+strconv.Itoa(s.files))
		s.files++
		to, err := os.Create(name)
		if err != nil {
			return nil, err
		}
		err = one.Tree().Write(s.ctx, to)
		if closed := to.Close(); err == nil {
			err = closed
		}
		if err != nil {
			return nil, err
		}
		files = append(files, name)
	}
	return files, nil
}
