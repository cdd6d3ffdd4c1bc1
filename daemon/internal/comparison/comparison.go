package comparison

import (
	"container/heap"
	"context"
	"fmt"
	"os"
	"slices"
	"sort"
	"strings"

	"github.com/moby/buildkit/solver/pb"
	"llbm/daemon/internal/graph"
	"llbm/daemon/internal/rewriting"
	"llbm/daemon/internal/rules"
)

const local = "local://"

// A Refused is an error in what a caller gave.
type Refused struct{ error }

func refuse(format string, words ...any) error { return Refused{fmt.Errorf(format, words...)} }

// A state is what an entry made in both: nothing if it failed, or if it is not known.
type state struct {
	there   []*rules.Ref
	here    []*rules.Node
	unknown bool // whether BuildKit may have something
	users   int  // which have not been done yet
	waits   int  // for inputs that have not been done yet
	needed  bool // whether the trees are looked at
	read    []rules.Reading
}

// A session compares the entries of two definitions, which have the same rows.
type session struct {
	ctx     context.Context
	talk    *Talk
	request Request
	sent    *graph.Graph
	run     *graph.Graph
	rows    rewriting.Rows
	parts   map[int][]graph.Part // of the rows that were divided
	inRun   map[int]int          // the vertex that runs, by row
	inSent  map[int]int          // the vertex as it was sent, by row
	states  []state              // by vertex as it was sent
	users   [][]int              // the same
	ready   numbers              // vertices that can be done
	waiting []int                // executions whose outputs are to be asked for
	trees   map[string]*rules.Node
	known   rules.Known // what is known of contents
	linked  bool        // whether contents may be symbolic links
	broken  bool        // whether something breaks BuildKit's daemon
	runs    bool        // whether there is an execution
	held    []*Step     // what is said later, or not at all
	why     string      // why BuildKit fails
	files   int
	layered bool // whether there is a merge, which needs layers
	anyTime bool // whether a copy sets a time that is not one of whole seconds
}

// Serve compares what a request on a reader names.
func Serve(ctx context.Context, talk *Talk) error {
	s := &session{ctx: ctx, talk: talk, trees: map[string]*rules.Node{}}
	if err := talk.Read(&s.request); err != nil {
		return refuse("the request is no line of JSON: %v", err)
	}
	s.known = rules.KnownOf(s.request.Known)
	sent, err := definitionAt(s.request.Sent)
	if err != nil {
		return err
	}
	if s.request.Numbered == nil {
		s.sent, err = graph.Read(sent, sent)
	} else {
		s.sent, err = graph.ReadNumbered(sent, s.request.Numbered)
	}
	if err != nil {
		return Refused{err}
	}
	run, err := s.toRun(sent)
	if err != nil {
		return err
	}
	if s.run = s.sent; run != sent {
		s.run, err = graph.Read(run, sent)
	}
	if err != nil {
		return Refused{err}
	}
	s.linked = s.hasLinks()
	s.prepare()
	if err := s.outside(sent); err != nil {
		return err
	}
	if err := s.all(); err != nil {
		return err
	}
	return s.end()
}

func definitionAt(file string) (*pb.Definition, error) {
	data, err := os.ReadFile(file)
	if err != nil {
		return nil, err
	}
	def := &pb.Definition{}
	if err := def.Unmarshal(data); err != nil {
		return nil, refuse("%s is no definition: %v", file, err)
	}
	return def, nil
}

// toRun returns the definition that runs, and says it if it is made here.
func (s *session) toRun(sent *pb.Definition) (*pb.Definition, error) {
	if s.request.Run != "" {
		return definitionAt(s.request.Run)
	}
	if !s.request.Rewrite {
		return sent, nil
	}
	run, rows, err := rewriting.Definition(s.ctx, sent, s)
	if err != nil {
		return nil, err
	}
	divided, further, parts, err := rewriting.Divide(run, rows)
	if err != nil {
		return nil, err
	}
	s.rows, s.parts = rows, parts
	data, err := divided.Marshal()
	if err != nil {
		return nil, err
	}
	return run, s.talk.Write(Message{Run: &Run{data, rows, further}})
}

// numbers hands out the least of its numbers.
type numbers struct{ sort.IntSlice }

func (n *numbers) Push(v any) { n.IntSlice = append(n.IntSlice, v.(int)) }

func (n *numbers) Pop() any {
	last := n.Len() - 1
	v := n.IntSlice[last]
	n.IntSlice = n.IntSlice[:last]
	return v
}

// prepare counts who waits for whom.
func (s *session) prepare() {
	count := len(s.sent.Vertices)
	s.inRun, s.inSent, s.states, s.users = map[int]int{}, map[int]int{}, make([]state, count), make([][]int, count)
	for v := range s.run.Vertices {
		s.inRun[s.run.Vertices[v].Row] = v
	}
	for v := range s.sent.Vertices {
		it := &s.sent.Vertices[v]
		s.inSent[it.Row], s.layered = v, s.layered || it.Op.GetMerge() != nil
		s.anyTime = s.anyTime || rules.SetsTime(it.Op)
		for _, input := range it.Inputs {
			s.states[input].needed = s.states[input].needed || s.request.Executes || s.linked || it.Op.GetExec() == nil
			s.states[input].users++
			s.states[v].waits++
			s.users[input] = append(s.users[input], v)
		}
		if s.states[v].waits == 0 {
			heap.Push(&s.ready, v)
		}
	}
	if s.request.Result || s.request.Tree {
		s.states[s.sent.Result].needed = true
		s.states[s.sent.Result].users++
	}
	s.readings()
}

// readings notes how each output is read, from the result to what it depends on.
func (s *session) readings() {
	read := func(v, output int, how rules.Reading) {
		one := &s.states[v]
		for len(one.read) <= output {
			one.read = append(one.read, rules.Unread)
		}
		one.read[output] = max(one.read[output], how)
	}
	for v := range s.states {
		s.states[v].read = []rules.Reading{}
	}
	read(s.sent.Result, s.sent.Output, rules.Shown)
	for v := len(s.states) - 1; v >= 0; v-- {
		it := &s.sent.Vertices[v]
		for i, how := range rules.InputReadings(it.Op, s.states[v].read) {
			read(it.Inputs[i], int(it.Op.Inputs[i].Index), how)
		}
	}
}

// all does all vertices: those that no execution is before first, and then asks what executions made.
func (s *session) all() error {
	for s.ready.Len() > 0 || len(s.waiting) > 0 {
		if err := s.ctx.Err(); err != nil {
			return err
		}
		if s.ready.Len() == 0 {
			v := s.waiting[0]
			s.waiting = s.waiting[1:]
			err := s.execution(v)
			if err == errLater {
				s.waiting = append(s.waiting, v)
				continue
			}
			if err != nil {
				return err
			}
			s.done(v)
			continue
		}
		v := heap.Pop(&s.ready).(int)
		if s.sent.Vertices[v].Op.GetExec() != nil {
			s.runs = true
			if err := s.sayHeld(); err != nil {
				return err
			}
			if _, err := s.static(v); err != nil {
				return err
			}
			s.waiting = append(s.waiting, v)
			continue
		}
		if err := s.vertex(v); err != nil {
			return err
		}
		s.done(v)
	}
	return nil
}

// done lets those go on that wait for a vertex. What a vertex made is forgotten after its last user.
func (s *session) done(v int) {
	for _, input := range s.sent.Vertices[v].Inputs {
		one := &s.states[input]
		if one.users--; one.users == 0 {
			one.there, one.here = nil, nil
		}
	}
	for _, user := range s.users[v] {
		if s.states[user].waits--; s.states[user].waits == 0 {
			heap.Push(&s.ready, user)
		}
	}
}

// inputs returns the inputs of a vertex in both, each of them nil if one of its inputs is not there.
func (s *session) inputs(v int) (there []*rules.Ref, here []*rules.Node) {
	there, here = []*rules.Ref{}, []*rules.Node{}
	it := &s.sent.Vertices[v]
	for i, input := range it.Inputs {
		index := int(it.Op.Inputs[i].Index)
		if there == nil || index < 0 || index >= len(s.states[input].there) {
			there = nil
			break
		}
		there = append(there, s.states[input].there[index])
	}
	r, ok := s.inRun[it.Row]
	if !ok {
		return there, nil
	}
	other := &s.run.Vertices[r]
	for i, input := range other.Inputs {
		index, one := int(other.Op.Inputs[i].Index), &s.states[s.inSent[s.run.Vertices[input].Row]]
		if index < 0 || index >= len(one.here) {
			return there, nil
		}
		here = append(here, one.here[index])
	}
	return there, here
}

// isUnknown is whether it is not known what BuildKit has of an input of a vertex.
func (s *session) isUnknown(v int) bool {
	for _, input := range s.sent.Vertices[v].Inputs {
		if s.states[input].unknown {
			return true
		}
	}
	return false
}

// vertex does a vertex that is no execution.
func (s *session) vertex(v int) error {
	dies, err := s.static(v)
	if err != nil {
		return err
	}
	made, err := s.made(v, dies)
	if err == nil {
		err = s.doParts(v, made)
	}
	if err != nil {
		return err
	}
	s.replaced(v, made)
	one := &s.states[v]
	one.there, one.here, one.unknown = made.There, made.Here, s.isUnknown(v)
	if !s.layered {
		one.there = rules.WithoutLayers(one.there)
	}
	switch {
	case dies:
		one.there, made.Steps = nil, nil
	case made.Dies != nil && !s.request.Received:
		s.dies(v, *made.Dies)
		made.Steps = append(made.Steps, *made.Dies)
	case made.Fails != "":
		s.fails(v, made.Fails)
	}
	return s.steps(v, made.Steps)
}

// made compares what a vertex makes. One of which BuildKit's daemon dies has no inputs there.
func (s *session) made(v int, dies bool) (*rules.Compared, error) {
	it := &s.sent.Vertices[v]
	if it.Op.GetSource() != nil {
		return s.source(v)
	}
	there, here := s.inputs(v)
	if dies {
		there = nil
	}
	var run *pb.Op
	var from []int
	if r, ok := s.inRun[it.Row]; ok {
		run = s.run.Vertices[r].Op
	}
	if row := s.rows[it.Row]; row != nil {
		from = row.Actions
	}
	made, err := rules.Compare(s.ctx, it.Op, run, from, there, here, s.states[v].read)
	if err == nil && !endAlike(made) {
		err = s.follows(v, here)
	}
	return made, err
}

// endAlike is whether both made the same: then it does not matter which links BuildKit followed.
func endAlike(made *rules.Compared) bool {
	return len(made.There) > 0 && slices.EqualFunc(made.There, made.Here, func(there *rules.Ref, here *rules.Node) bool {
		return rules.EqualBelow(there.Tree(), here)
	})
}

// replaced says which files a merge of BuildKit can have as they were before, as far as times are known.
func (s *session) replaced(v int, made *rules.Compared) {
	op := s.sent.Vertices[v].Op
	if !s.layered || op.GetSource() != nil {
		return
	}
	there, _ := s.inputs(v)
	for _, one := range made.There {
		if op.GetMerge() == nil {
			rules.NoteReplaced(one, there, s.anyTime)
		} else if lines := rules.KeepsReplaced(one, there); len(lines) > 0 && rules.ReadingOf(s.states[v].read, 0) == rules.Shown {
			made.Steps = append(made.Steps, rules.Step{Action: -1, Lines: lines})
		}
	}
}

// doParts does the parts of an op that was divided, and takes what they make if it is something else than the op makes.
func (s *session) doParts(v int, made *rules.Compared) error {
	parts := s.parts[s.sent.Vertices[v].Row]
	if len(parts) == 0 || made.Here == nil {
		return nil
	}
	_, inputs := s.inputs(v)
	here, err := rewriting.DoParts(s.ctx, parts, inputs)
	if s.ctx.Err() != nil {
		return s.ctx.Err()
	}
	if err != nil || !slices.EqualFunc(here, made.Here, rules.Equal) {
		made.Here = here
		line := rules.Line{Words: "the parts of the op make something else", Notes: []string{rules.Rewriting}}
		made.Steps = append(made.Steps, rules.Step{Action: -1, Lines: []rules.Line{line}})
	}
	return nil
}

// nameOf returns the name of a local source.
func nameOf(op *pb.Op) string { return strings.TrimPrefix(op.GetSource().GetIdentifier(), local) }

// fileOf returns the file of a source's tree.
func (s *session) fileOf(v *graph.Vertex) (string, error) {
	if file, ok := s.request.Rows[v.Row]; ok {
		return file, nil
	}
	name := nameOf(v.Op)
	if file, ok := s.request.Sources[name]; ok {
		return file, nil
	}
	return "", refuse("local source %s has no tree", name)
}

// tree returns the tree of a source.
func (s *session) tree(v *graph.Vertex) (*rules.Node, error) {
	file, err := s.fileOf(v)
	if err != nil {
		return nil, err
	}
	if t, ok := s.trees[file]; ok {
		return t, nil
	}
	t, err := s.read(file, rules.Reader{Linked: s.request.Links[v.Row], Times: s.request.Times[v.Row], Folders: s.request.Folders[v.Row]})
	s.trees[file] = t
	return t, err
}

// read reads the tree in a file.
func (s *session) read(file string, reader rules.Reader) (*rules.Node, error) {
	text, err := os.Open(file)
	if err != nil {
		return nil, err
	}
	defer text.Close()
	reader.Known = s.known
	t, err := reader.Read(s.ctx, text)
	if err == nil && t == nil {
		err = fmt.Errorf("no tree is there")
	}
	if err != nil {
		return nil, fmt.Errorf("%s: %w", file, err)
	}
	return t, nil
}

// Source returns the tree of a source, as llbm gets it and as BuildKit has it.
func (s *session) Source(ctx context.Context, v *graph.Vertex) (here, there *rules.Node, err error) {
	t, err := s.tree(v)
	if err != nil || s.request.Received {
		return t, t, err
	}
	there, err = rules.Sent(ctx, v.Op.GetSource(), t, rules.All)
	if err != nil {
		return t, nil, nil
	}
	return t, there, nil
}

// source compares a source. If no tree is looked at, it is empty.
func (s *session) source(v int) (*rules.Compared, error) {
	if !s.states[v].needed {
		return rules.Same(rules.Empty()), nil
	}
	it := &s.sent.Vertices[v]
	t, err := s.tree(it)
	if err != nil {
		return nil, err
	}
	if s.request.Received {
		return rules.Same(t), nil
	}
	return rules.CompareSources(s.ctx, it.Op.GetSource(), t)
}
