package runs

import (
	"fmt"
	"strings"

	"github.com/moby/buildkit/solver/errdefs"
	"github.com/moby/buildkit/solver/pb"
	"google.golang.org/grpc/codes"
	"google.golang.org/grpc/status"
	"llbm/daemon/internal/machine"
	"llbm/daemon/internal/printable"
	"llbm/daemon/internal/progress"
	"llbm/daemon/internal/standins"
)

// Failure returns why a vertex failed: `V failed action A fault N` or `V failed command C status S` as llbm prints it,
// with what the action or the command is, and the reason where it is known. The vertex was settled by an event.
func (s *Session) Failure(p *progress.Progress, v int, settled machine.Event) error {
	number := s.numbers[v]
	failure, err := s.run.Failure(number)
	if err != nil {
		return err
	}
	if failure.IsCommand {
		return s.commandFailure(v, failure, settled)
	}
	it, place, code := &s.graph.Vertices[v], failure.Place, failure.Code
	action, why := p.Action(v, place), p.Fails(v)
	if actions := s.graph.Vertices[v].Op.GetFile().GetActions(); why == "" && place < len(actions) {
		if why, err = s.run.Why(settled, place); err != nil {
			return err
		}
		why = reason(actions[place], why)
	}
	text := fmt.Sprintf("fault %d %s", code, machine.Name(code))
	if why != "" {
		text += ": " + printable.Of(why)
	}
	if action < 0 {
		return failed(it.Sent, nil, status.Errorf(codes.Unknown, "llbm: failed %d %s", number, text))
	}
	subject := &errdefs.Solve_File{File: &errdefs.FileAction{Index: int64(action)}}
	return failed(it.Sent, subject, status.Errorf(codes.Unknown, "llbm: failed %d action %d %s", number, action, text))
}

// commandFailure returns why a command failed. llbm says the reason.
func (s *Session) commandFailure(v int, failure machine.Failure, settled machine.Event) error {
	it := &s.graph.Vertices[v]
	text := fmt.Sprintf("llbm: failed %d command %d status %d", failure.Vertex, failure.Place, failure.Code)
	if calls := standins.Calls(it.Op.GetExec()); failure.Place < len(calls) {
		text += ": " + printable.Of(strings.Join(calls[failure.Place], " "))
	}
	why, err := s.run.Why(settled, failure.Place)
	if err != nil {
		return err
	}
	if why != "" {
		text += ": " + printable.Of(why)
	}
	return failed(it.Sent, nil, status.Error(codes.Unknown, text))
}

// failed adds to the error of a vertex what clients show of it.
func failed(op *pb.Op, subject errdefs.IsSolve_Subject, err error) error {
	return errdefs.WithSolveError(errdefs.WithOp(err, op), subject, nil, nil)
}

// What llbm says before and after the path of a copy's source if nothing is there, and of a source that is a pattern if nothing matches.
const sourceMissing, inSource, noMatch = "nothing is at ", " in the tree that it copies from", "nothing matches the text of src"

// lacksSource returns whether a copy failed for want of its source. The source may be a pattern without wildcards: then it is told as a path.
func lacksSource(c *pb.FileActionCopy, why string) bool {
	if strings.HasPrefix(why, sourceMissing) && strings.HasSuffix(why, inSource) {
		return true
	}
	return why == noMatch && !strings.ContainsAny(c.Src, `*?[\`)
}

// reason returns an action and why it failed, as llbm says it. A missing source of a copy is told as BuildKit tells it.
func reason(action *pb.FileAction, why string) string {
	switch a := action.Action.(type) {
	case *pb.FileAction_Mkfile:
		return because("mkfile "+a.Mkfile.Path, why)
	case *pb.FileAction_Mkdir:
		return because("mkdir "+a.Mkdir.Path, why)
	case *pb.FileAction_Rm:
		return because("rm "+a.Rm.Path, why)
	case *pb.FileAction_Copy:
		if lacksSource(a.Copy, why) {
			return fmt.Sprintf("%q: not found: lstat %s: no such file or directory", a.Copy.Src, a.Copy.Src)
		}
		return because("copy "+a.Copy.Src+" "+a.Copy.Dest, why)
	}
	return why
}

// because returns a subject, and after a colon why it failed if that is known.
func because(subject, why string) string {
	if why == "" {
		return subject
	}
	return subject + ": " + why
}
