package machine

import (
	"context"
	"errors"
	"fmt"
	"os/exec"
	"strings"
	"syscall"

	"google.golang.org/grpc/codes"
	"google.golang.org/grpc/status"
)

// names are those of the faults that a build can end with (docs/FAULTS.md; a test compares both).
var names = map[int]string{
	1: "Truncated", 2: "LongVarint", 3: "BadField", 4: "BadWireType", 11: "WrongWireType", 12: "NotUtf8", 13: "OverLimit",
	14: "Entries", 21: "NotFound", 22: "NotDir", 23: "IsDir", 24: "Conflict", 25: "Root", 26: "BadName", 31: "BadLine", 32: "Order",
	33: "NoParent", 34: "Memory", 35: "Write", 52: "BadPattern", 71: "NoApplet", 72: "Usage", 73: "ShellSyntax", 81: "Definition",
	82: "Entry", 83: "TooFew", 84: "Collision", 85: "NoResult", 86: "UnknownDigest", 87: "Cycle", 88: "Unsupported", 89: "Invalid",
	90: "BadIndex", 91: "Loading", 92: "Adding", 121: "MissingLocal", 122: "Workers", 123: "Opening", 141: "Memory", 151: "Memory",
	153: "Thread", 171: "Board", 174: "Memory", 181: "Read", 182: "Write", 183: "Words", 184: "Memory", 185: "TooLong",
}

// Name returns the name of a fault, or nothing.
func Name(fault int) string { return names[fault] }

// memory are the faults that say that memory was refused.
var memory = map[int]bool{14: true, 34: true, 91: true, 92: true, 123: true, 141: true, 151: true, 174: true, 184: true}

// board is the fault of a session whose cause is a fault of its board.
const board = 171

// A Refusal is a fault of llbm as an error of gRPC.
type Refusal struct {
	Number int
	Second int          // the number after that of the fault, or -1; of a fault of a definition it is mostly a row
	Script *ScriptFault // or nil
	status *status.Status
}

func (r *Refusal) Error() string { return r.status.Err().Error() }

// GRPCStatus returns the error as gRPC has it.
func (r *Refusal) GRPCStatus() *status.Status { return r.status }

// Fault returns the error for a line `fault N ..` of llbm. Its message begins with `llbm: ` and the line, and has the fault's
// name.
func Fault(line string) error {
	number, cause, ok := parseFault(line)
	if !ok {
		return status.Errorf(codes.Internal, "llbm: %s", line)
	}
	var script *ScriptFault
	if one, ok := parseScript(line); ok {
		script = &one
	}
	code := codes.InvalidArgument
	switch {
	case number == 88:
		code = codes.Unimplemented
	case number == 121:
		code = codes.FailedPrecondition
	case number == 13 || number == 185 || memory[number] || number == board && memory[cause] || strings.HasSuffix(line, " 13"):
		code = codes.ResourceExhausted
	case number >= 171 && number <= 184:
		code = codes.Internal
	}
	if name := Name(number); name != "" && number != 88 && number != 89 {
		line += " " + name
	}
	if number == board && memory[cause] {
		line += ": memory was refused"
	}
	return &Refusal{Number: number, Second: cause, Script: script, status: status.Newf(code, "llbm: %s", line)}
}

// faultIn returns the first line of the program's messages that is a fault, or nothing.
func faultIn(messages string) string {
	for _, line := range strings.Split(messages, "\n") {
		if strings.HasPrefix(line, "fault ") {
			return line
		}
	}
	return ""
}

// ended returns why the program ended other than at its end.
func (p *Program) ended(ctx context.Context, messages string, err error) error {
	switch cause := context.Cause(ctx); {
	case cause == errTime:
		return status.Errorf(codes.ResourceExhausted, "llbm: the build took longer than %s", p.Limits.Time)
	case cause == errOutput:
		return status.Errorf(codes.ResourceExhausted, "llbm: the build wrote more than %d bytes", p.Limits.Output)
	case ctx.Err() != nil:
		return status.FromContextError(ctx.Err()).Err()
	}
	if line := faultIn(messages); line != "" {
		return Fault(line)
	}
	if outOfMemory(messages, err) {
		return status.Errorf(codes.ResourceExhausted, "llbm: the build needs more memory than %d bytes", p.Limits.Memory)
	}
	return status.Errorf(codes.Internal, "llbm: the program ended early (%v)%s", err, lastWords(messages, err))
}

// lastWords says what is known of a program that ended early.
func lastWords(messages string, err error) string {
	if said := strings.TrimSpace(messages); said != "" {
		return fmt.Sprintf(": %.500s", said)
	}
	var exit *exec.ExitError
	if errors.As(err, &exit) && exit.Sys().(syscall.WaitStatus).Signal() == syscall.SIGKILL {
		return ": the kernel kills programs so where memory is short"
	}
	return ", and wrote nothing to standard error"
}
