package machine

import (
	"bufio"
	"bytes"
	"context"
	"errors"
	"fmt"
	"io"
	"math"
	"os"
	"strconv"
	"strings"
	"sync"
	"sync/atomic"

	"golang.org/x/sys/unix"
	"llbm/daemon/internal/tree"
)

// A Source is a local source by its name, with the text of its tree.
type Source struct {
	Name string
	Text *os.File
}

// InMemory makes a file in memory, without a name.
func InMemory(name string) (*os.File, error) {
	fd, err := unix.MemfdCreate(name, unix.MFD_CLOEXEC)
	if err != nil {
		return nil, fmt.Errorf("memfd_create: %w", err)
	}
	return os.NewFile(uintptr(fd), name), nil
}

// PathOf returns a path by which a child of the daemon can open one of its files.
func PathOf(file *os.File) string { return fmt.Sprintf("/proc/%d/fd/%d", os.Getpid(), file.Fd()) }

// A Run is a session of `llbm step`, in which an empty line ends each reply.
type Run struct {
	*process
	in          io.WriteCloser
	out         io.ReadCloser
	lines       *bufio.Reader
	outstanding int
	left        int  // how many events may still be asked for
	events      int  // how many were done
	aside       *int // how many bytes may still be read aside, while that is done
	leave       func()
}

// window is how many events are asked for at a time.
const window = 64

// Step begins a run of a definition, which is in a file, on local sources. What it writes is added to a number, which the
// runs of one build share: the bound on output is on all of them.
//
// The caller has to stop it.
func (p *Program) Step(ctx context.Context, definition *os.File, sources []Source, workers int, written *atomic.Int64) (*Run, error) {
	leave, err := p.enter(ctx)
	if err != nil {
		return nil, err
	}
	r, err := p.step(ctx, definition, sources, workers, written)
	if err != nil {
		leave()
		return nil, err
	}
	r.leave = sync.OnceFunc(leave)
	return r, nil
}

func (p *Program) step(ctx context.Context, definition *os.File, sources []Source, workers int, written *atomic.Int64) (*Run, error) {
	const firstFile = 3
	files := []*os.File{definition}
	words := []string{"step", place(firstFile), "--looks", "--ends", "--workers", strconv.Itoa(workers)}
	for i, source := range sources {
		files = append(files, source.Text)
		words = append(words, source.Name+"="+place(firstFile+1+i))
	}
	process, err := p.start(ctx, nil, nil, files, words...)
	if err != nil {
		return nil, err
	}
	process.written = written
	r := &Run{process: process, left: math.MaxInt}
	if r.in, err = r.cmd.StdinPipe(); err != nil {
		return nil, err
	}
	if r.out, err = r.cmd.StdoutPipe(); err != nil {
		return nil, err
	}
	if err := r.begin(); err != nil {
		return nil, err
	}
	r.limitTime()
	r.lines = bufio.NewReaderSize(r.out, 1<<16)
	return r, nil
}

func place(fd int) string { return "/proc/self/fd/" + strconv.Itoa(fd) }

// read returns the next line of the program's, without its end. It is overwritten by the next read.
func (r *Run) read() ([]byte, error) {
	line, err := r.part()
	if errors.Is(err, bufio.ErrBufferFull) {
		long := append([]byte(nil), line...)
		for errors.Is(err, bufio.ErrBufferFull) {
			line, err = r.part()
			long = append(long, line...)
		}
		line = long
	}
	if err != nil {
		return nil, r.broken(err)
	}
	return line[:len(line)-1], nil
}

// part reads a line, or as much of one as the buffer holds. It fails as soon as too much has been written.
func (r *Run) part() ([]byte, error) {
	line, err := r.lines.ReadSlice('\n')
	if over := r.counted(len(line)); over != nil {
		return nil, over
	}
	return line, err
}

// counted counts bytes of a line: as output of the build, or of what is read aside.
func (r *Run) counted(n int) error {
	if r.aside == nil {
		return r.count(n)
	}
	if *r.aside -= n; *r.aside < 0 {
		r.cancel(errAside)
		return errAside
	}
	return nil
}

// reply reads the lines of the next reply, up to the empty line that ends it, and calls a function for each. After an error of the
// function it reads on, so that the next reply is the next one.
func (r *Run) reply(found func(line []byte) error) error {
	var fault error
	for {
		line, err := r.read()
		if err != nil {
			return err
		}
		if len(line) == 0 {
			return fault
		}
		if fault == nil {
			fault = found(line)
		}
	}
}

// ask sends commands. If they can't be sent the process has ended, and its last words are still to be read: they say why.
func (r *Run) ask(commands string) { _, _ = io.WriteString(r.in, commands) }

// broken ends the process, and returns why it stopped talking.
func (r *Run) broken(err error) error {
	_ = r.in.Close()
	if ended := r.wait(); ended != nil {
		return ended
	}
	return fmt.Errorf("llbm: the session ended early: %w", err)
}

// Graph returns the graph of the definition, as the program has read it. A definition that it refuses is an error.
func (r *Run) Graph() (*Graph, error) {
	if err := r.settle(); err != nil {
		return nil, err
	}
	const none = -1
	g, named := &Graph{Result: Place{Vertex: none}}, 0
	r.ask("graph\ndigests\n")
	if err := r.reply(func(line []byte) error { return g.add(string(line)) }); err != nil {
		return nil, err
	}
	err := r.reply(func(line []byte) error {
		named++
		return g.name(named-1, string(line))
	})
	if err == nil && (named != len(g.Vertices) || g.Result.Vertex == none) {
		err = fmt.Errorf("llbm: its graph has %d vertices, %d digests and the result %d", len(g.Vertices), named, g.Result.Vertex)
	}
	r.left = g.events + 1 // and the end
	return g, err
}

// Next does the next event, and returns its line, or false if there is none. Some events are asked for in advance.
func (r *Run) Next() (Event, bool, error) {
	if r.outstanding <= window/2 {
		more := min(window-r.outstanding, r.left)
		if r.outstanding == 0 {
			more = max(more, 1)
		}
		r.ask(strings.Repeat("next\n", more))
		r.outstanding, r.left = r.outstanding+more, r.left-more
	}
	var line string
	if err := r.reply(func(found []byte) error { line = string(found); return nil }); err != nil {
		return Event{}, false, err
	}
	r.outstanding--
	if line == "end" {
		return Event{}, false, nil
	}
	if strings.HasPrefix(line, "fault ") {
		err := Fault(line)
		r.Stop()
		return Event{}, false, err
	}
	r.events++
	event, err := parseEvent(line)
	return event, err == nil, err
}

// settle reads the replies to events that were asked for in advance.
func (r *Run) settle() error {
	for ; r.outstanding > 0; r.outstanding-- {
		err := r.reply(func(line []byte) error {
			if string(line) != "end" {
				r.events++
			}
			return nil
		})
		if err != nil {
			return err
		}
	}
	return nil
}

// skip skips replies.
func (r *Run) skip(count int) error {
	for range count {
		if err := r.reply(func([]byte) error { return nil }); err != nil {
			return err
		}
	}
	return nil
}

// Failure returns how a vertex failed.
func (r *Run) Failure(vertex int) (found Failure, err error) {
	if err := r.settle(); err != nil {
		return found, err
	}
	r.ask("status\n")
	isFound := false
	err = r.reply(func(line []byte) error {
		if failure, ok := parseFailure(string(line)); ok && failure.Vertex == vertex {
			found, isFound = failure, true
		}
		return nil
	})
	if err == nil && !isFound {
		err = fmt.Errorf("llbm: it does not say how vertex %d failed", vertex)
	}
	return found, err
}

// Why returns in words why a command or an action failed of the vertex that an event settled, or "" if it is not known. It goes back to
// before the event, where the worker still has the trees that the command or the action saw, and then forward again.
func (r *Run) Why(settled Event, place int) (string, error) {
	if err := r.settle(); err != nil {
		return "", err
	}
	back, why := r.events-settled.Number+1, ""
	r.ask(strings.Repeat("back\n", back) + fmt.Sprintf("why %d %d\n", settled.Worker, place) + strings.Repeat("next\n", back))
	if err := r.skip(back); err != nil {
		return "", err
	}
	err := r.reply(func(line []byte) error { why = string(line); return nil })
	if err != nil {
		return "", err
	}
	if why == "none" || strings.HasPrefix(why, "fault ") {
		why = ""
	}
	return why, r.skip(back)
}

// Tree returns the tree of an output, or nil if there is none yet.
func (r *Run) Tree(vertex, output int) (tree.Tree, error) {
	var out tree.Tree
	err := r.treeLines(vertex, output, func(line []byte) error {
		entry, err := tree.ParseLine(line)
		out = append(out, entry)
		return err
	})
	if err != nil {
		return nil, err
	}
	return out, nil
}

// Aside writes the text of the tree of an output, and returns how many bytes it has, 0 if there is none yet. They do not count as
// output of the build. If they are more than some, the session ends.
func (r *Run) Aside(vertex, output, most int, to io.Writer) (int, error) {
	if err := r.settle(); err != nil {
		return 0, err
	}
	left, written := most, 0
	r.aside = &left
	defer func() { r.aside = nil }()
	err := r.treeLines(vertex, output, func(line []byte) error {
		written += len(line) + 1
		_, err := to.Write(append(line, '\n'))
		return err
	})
	if left < 0 {
		r.Stop()
		return 0, errAside
	}
	return written, err
}

// treeLines asks for a tree, and calls a function for each line of it.
func (r *Run) treeLines(vertex, output int, found func(line []byte) error) error {
	if err := r.settle(); err != nil {
		return err
	}
	r.ask(fmt.Sprintf("tree %d %d\n", vertex, output))
	return r.reply(func(line []byte) error {
		switch {
		case string(line) == "none":
			return nil
		case !bytes.HasPrefix(line, []byte("d ")) && !bytes.HasPrefix(line, []byte("f ")):
			return fmt.Errorf("llbm: %.80q is no line of a tree", line)
		}
		return found(line)
	})
}

// Stop ends the run at once.
func (r *Run) Stop() {
	r.cancel(nil)
	_ = r.wait()
	r.leave()
}
