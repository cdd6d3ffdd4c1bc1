// Package differences shows, as warnings of a build, where BuildKit would end otherwise: by fields and executions alone, and by what the
// process llbm-rules compares. It returns what is run in the place of what was sent, so that both end alike.
package differences

import (
	"context"
	"errors"
	"fmt"
	"io"
	"os"
	"strings"
	"time"

	"google.golang.org/grpc/codes"
	"google.golang.org/grpc/status"
	"llbm/daemon/internal/comparison"
	"llbm/daemon/internal/graph"
	"llbm/daemon/internal/inputs"
	"llbm/daemon/internal/machine"
	"llbm/daemon/internal/messages"
	"llbm/daemon/internal/notes"
	"llbm/daemon/internal/progress"
	"llbm/daemon/internal/rules"
)

const (
	// patience is how long a build waits, once llbm has ended, for what BuildKit would make of it.
	patience = 30 * time.Second
	// mostAside is how many bytes of executions' outputs are read for that.
	mostAside = 128 << 20
	// mostDetails is how many paths a warning names.
	mostDetails = 20
)

// Options say what the daemon does about differences.
type Options struct {
	Notes   *notes.Table // of fields without an effect, or nil
	Literal bool         // whether definitions run by llbm's rules where they differ from BuildKit's
	Strict  bool         // whether a build fails of which BuildKit would make something else
}

// A Comparer compares builds, some at once.
type Comparer struct {
	Options
	slots chan struct{}
}

// New returns a comparer of at most some builds at once.
func New(o Options, atOnce int) *Comparer { return &Comparer{o, make(chan struct{}, atOnce)} }

// A Comparison says where BuildKit would end otherwise, as warnings, while llbm runs. A child does the work, so it has bounds of
// its own. A build does not fail by it.
type Comparison struct {
	p      *progress.Progress
	g      *graph.Graph // of the definition as it was sent
	in     *inputs.Inputs
	ctx    context.Context
	cancel context.CancelFunc
	talk   *comparison.Talk
	child  *machine.Talk
	run    chan *comparison.Run
	asked  chan *comparison.Question
	done   chan struct{} // is closed when nothing more is said
	why    string        // why not all was compared
	files  []*os.File
	left   int // how many bytes of outputs may still be read
	strict bool
	// rewrites is whether other ops are to run than those that were sent.
	rewrites bool
	// refusal is why the build fails, if it is strict: the first way in which BuildKit ends otherwise.
	refusal error
	// followed is why the build fails: BuildKit would follow a symbolic link, or whether it would is not known.
	followed error
	linked   bool // whether a source has a symbolic link
	leave    func()
}

// isCompared is whether a graph has something to compare. What an execution does with links is looked at, too.
func isCompared(g *graph.Graph, isLinked bool) bool {
	for v := range g.Vertices {
		if op := g.Vertices[v].Op; op.GetFile() != nil || op.GetMerge() != nil || isLinked && op.GetExec() != nil {
			return true
		}
	}
	return false
}

// Compare begins a comparison of a graph. Its caller has to stop it before the inputs are closed. A build without a file op and without a
// merge has none.
func (d *Comparer) Compare(ctx context.Context, g *graph.Graph, in *inputs.Inputs, p *progress.Progress) *Comparison {
	c := &Comparison{
		p: p, g: g, in: in, run: make(chan *comparison.Run, 1), asked: make(chan *comparison.Question), done: make(chan struct{}), left: mostAside,
		strict: d.Strict || p.Build.Strict, rewrites: d.rewrites(g, p), linked: in.HasLinks(),
	}
	c.ctx, c.cancel = context.WithCancel(ctx)
	c.static()
	if !isCompared(g, c.linked) {
		close(c.done)
		return c
	}
	if err := d.begin(c); err != nil {
		c.why = err.Error()
		close(c.done)
		return c
	}
	go c.listen()
	return c
}

// errNoRules says what is missing.
var errNoRules = errors.New("the program llbm-rules is missing: dev/dev daemon builds it beside llbmd")

// begin starts the child, and says what it has to compare.
func (d *Comparer) begin(c *Comparison) error {
	program := c.p.Build.Shared.Rules
	if program == nil {
		return errNoRules
	}
	data, err := c.g.Def.Marshal()
	if err != nil {
		return err
	}
	sent, err := c.file("sent", data)
	if err != nil {
		return err
	}
	select {
	case d.slots <- struct{}{}:
		c.leave = func() {
			<-d.slots
			go program.Ready() // the next build finds one that runs
		}
	case <-c.ctx.Done():
		return c.ctx.Err()
	}
	if c.child, err = program.Talk(c.ctx); err != nil {
		c.child = nil
		return err
	}
	c.talk = comparison.NewTalk(c.child, c.child.In)
	return c.talk.Write(c.request(sent))
}

// request says what is compared, given the path of the definition as it was sent.
func (c *Comparison) request(sent string) *comparison.Request {
	request := &comparison.Request{
		Sent: sent, Rewrite: c.rewrites, Received: true, Paths: mostDetails, Rows: map[int]string{}, Links: map[int][]string{},
		Times: c.in.Times(c.g), Known: c.in.Known, Folders: map[int]map[string]rules.Folder{},
	}
	for row, source := range c.in.Sources(c.g) {
		request.Rows[row] = source.Text
		if len(source.Linked) > 0 {
			request.Links[row] = source.Linked
		}
		if source.Folders != nil {
			request.Folders[row] = source.Folders
		}
	}
	return request
}

// file makes a file in memory, which lasts as long as the comparison, and returns its path for the child.
func (c *Comparison) file(name string, data []byte) (string, error) {
	file, err := machine.InMemory(name)
	if err != nil {
		return "", err
	}
	c.files = append(c.files, file)
	_, err = file.Write(data)
	return machine.PathOf(file), err
}

// static shows what does not depend on trees.
func (c *Comparison) static() {
	for v := range c.g.Vertices {
		for _, step := range rules.Static(c.g.Vertices[v].Op) {
			c.show(&comparison.Step{Vertex: v, Action: step.Action, Lines: step.Lines})
		}
	}
	if v := rules.Deep(c.g.Vertices); v >= 0 {
		step := rules.StepOfNote(rules.Depth)
		c.show(&comparison.Step{Vertex: v, Action: step.Action, Lines: step.Lines})
	}
	for _, line := range rules.UnknownInputs(c.g.Def) {
		c.show(&comparison.Step{Vertex: c.g.Result, Action: -1, Lines: []rules.Line{line}})
	}
}

// listen shows what the child says, up to its end.
func (c *Comparison) listen() {
	defer close(c.done)
	defer func() {
		if r := recover(); r != nil {
			c.why = fmt.Sprint(r)
		}
	}()
	for {
		var m comparison.Message
		if err := c.talk.Read(&m); err != nil {
			c.why = c.child.Why(err)
			return
		}
		switch {
		case m.Run != nil:
			c.run <- m.Run
		case m.Step != nil:
			c.show(m.Step)
		case m.Follows != nil:
			if v := m.Follows.Vertex; c.followed == nil && v >= 0 && v < len(c.g.Vertices) {
				c.followed = c.g.Wrap(v, status.Error(codes.Unimplemented, "llbm: "+messages.Text(m.Follows.Words)))
			}
		case m.Needs != nil:
			select {
			case c.asked <- m.Needs:
			case <-c.ctx.Done():
				return
			}
		case m.End != nil:
			return
		}
	}
}

// rewritten returns the definition that the child made, or nil if there is none.
func (c *Comparison) rewritten() *comparison.Run {
	select {
	case run := <-c.run:
		return run
	case <-c.done:
	}
	select {
	case run := <-c.run: // it came just before the end
		return run
	default:
		return nil
	}
}

// Stop ends a comparison.
func (c *Comparison) Stop() {
	c.cancel()
	<-c.done
	if c.child != nil {
		c.child.Stop()
	}
	if c.leave != nil {
		c.leave()
	}
	c.close()
}

func (c *Comparison) close() {
	for _, file := range c.files {
		_ = file.Close()
	}
	c.files = nil
}

// A Session has the outputs of executions, once llbm has done all events that it does.
type Session interface {
	// Aside writes the text of the tree of an output of a vertex, and returns how many bytes it has, 0 if there is none.
	Aside(v, output, most int, to io.Writer) (int, error)
	Stop()
}

// End compares what is left, once llbm has done all events that it does, with the executions' outputs. The session is stopped if
// this takes too long, or reads too much. It returns why the build fails even if its own work failed: BuildKit would follow a symbolic
// link, or whether it would is not known.
func (c *Comparison) End(session Session) error {
	c.compareOutputs(session)
	return c.followed
}

// Refusal returns why a build fails that is strict, if BuildKit would end otherwise.
func (c *Comparison) Refusal() error { return c.refusal }

func (c *Comparison) compareOutputs(session Session) {
	late := make(chan struct{})
	timer := time.AfterFunc(patience, func() {
		close(late)
		c.cancel()
		session.Stop()
	})
	defer timer.Stop()
	for {
		select {
		case question := <-c.asked:
			if err := c.answer(session, question); err != nil {
				c.cancel()
				<-c.done
				c.why = err.Error()
			}
		case <-c.done:
			select {
			case <-late:
				c.why = fmt.Sprintf("it takes more than %s longer than the build", patience)
			default:
			}
			c.conclude()
			return
		}
	}
}

// conclude shows, once in a build, that not all was compared.
func (c *Comparison) conclude() {
	if c.why == "" || c.p.Build.Context.Err() != nil {
		return
	}
	text := "not all was compared with what BuildKit would make: " + c.why
	if c.linked && c.followed == nil {
		c.followed = status.Error(codes.Unimplemented, "llbm: a source has symbolic links, and whether BuildKit would follow one is not known: "+text)
	}
	c.refuse(c.g.Result, text)
	if c.p.OncePerBuild("not all was compared") {
		c.p.WarnOf(c.g.Vertices[c.g.Result].Digest, text, nil)
	}
}

// answer tells the child what an execution made.
func (c *Comparison) answer(session Session, question *comparison.Question) error {
	reply := &comparison.Reply{Vertex: question.Vertex, Outputs: []string{}}
	v, ok := c.p.Graph.Find(question.Row)
	if !ok {
		return fmt.Errorf("there is no vertex of entry %d", question.Row)
	}
	c.close() // the child has read them
	for index := range rules.Outputs(c.p.Graph.Vertices[v].Op.GetExec()) {
		path, err := c.file("output", nil)
		if err != nil {
			return err
		}
		size, err := session.Aside(v, index, c.left, c.files[len(c.files)-1])
		if err != nil {
			return err
		}
		if size == 0 {
			reply = &comparison.Reply{Vertex: question.Vertex, Failed: true}
			break
		}
		c.left -= size
		reply.Outputs = append(reply.Outputs, path)
	}
	return c.talk.Write(reply)
}

// show shows a step that ends otherwise: one warning for all paths with the same causes. What only follows from a difference
// of an input has none.
func (c *Comparison) show(s *comparison.Step) {
	var order []string
	groups := map[string][]rules.Line{}
	for _, line := range s.Lines {
		if len(line.Contents) > 0 && c.in.AreEqual(line.Contents[0], line.Contents[1]) {
			continue
		}
		key := strings.Join(line.Notes, " ")
		if len(line.Notes) > 0 && groups[key] == nil {
			order = append(order, key)
		}
		groups[key] = append(groups[key], line)
	}
	for _, key := range order {
		c.differs(s, groups[key])
	}
}

// differs shows a warning for lines with the same causes.
func (c *Comparison) differs(s *comparison.Step, lines []rules.Line) {
	place := ""
	if action := c.p.SentAction(c.g.Vertices[s.Vertex].Row, s.Action); action >= 0 {
		place = fmt.Sprintf("action %d: ", action)
	}
	var details []string
	for _, name := range lines[0].Notes {
		details = append(details, rules.TextOf(name).String())
	}
	more := len(lines) - 1
	for i, line := range lines {
		more += line.More
		if i > 0 && i < mostDetails {
			details = append(details, place+line.String())
		}
	}
	short := place + lines[0].String()
	switch {
	case s.More:
		short += fmt.Sprintf(", and more than %d more", more)
	case more > 0:
		short += fmt.Sprintf(", and %d more", more)
	}
	if line := lines[0]; line.Notes[0] == rules.Execution && line.Words != comparison.Unknown {
		if !c.p.OncePerBuild(line.Words) {
			return // the words are the same for all executions
		}
	} else {
		c.refuse(s.Vertex, short)
	}
	c.p.NoteOf(c.g.Vertices[s.Vertex].Digest, short, details)
}

// refuse lets a strict build fail, once it has run.
func (c *Comparison) refuse(v int, text string) {
	if c.strict && c.refusal == nil {
		c.refusal = c.g.Wrap(v, status.Error(codes.FailedPrecondition, "the build is strict: "+text))
	}
}
