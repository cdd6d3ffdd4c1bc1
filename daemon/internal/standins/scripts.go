package standins

import (
	"context"
	"fmt"
	"slices"
	"strconv"
	"strings"
	"unicode/utf8"

	"github.com/moby/buildkit/solver/pb"
	digest "github.com/opencontainers/go-digest"
	"llbm/daemon/internal/graph"
	"llbm/daemon/internal/machine"
)

// What a script of llbm is, llbm says itself. Here is only how its text is split into calls, for a person.

// Advice is what can be done about an execution whose words are no script.
const Advice = "llbmd's option -rules FILE gives such a RUN a stand-in, as docker buildx's --build-context llbm-rules=DIRECTORY does, " +
	"and with -run skip it does nothing"

// A Script has the words of an execution, which can be replaced.
type Script struct {
	words  []string
	isText bool
	calls  [][]int // the places of each call's words
}

// ScriptOf returns the script of an execution.
func ScriptOf(exec *pb.ExecOp) Script {
	if exec.GetMeta() == nil {
		return Script{}
	}
	args := exec.Meta.Args
	if len(args) != 3 || args[0] != "/bin/sh" || args[1] != "-c" {
		s := Script{words: slices.Clone(args), calls: [][]int{nil}}
		for place := range args {
			s.calls[0] = append(s.calls[0], place)
		}
		return s
	}
	s := Script{words: strings.Split(args[2], " "), isText: true, calls: [][]int{nil}}
	for place, word := range s.words {
		switch word {
		case "":
		case ";", "&&", "||":
			s.calls = append(s.calls, nil)
		default:
			last := len(s.calls) - 1
			s.calls[last] = append(s.calls[last], place)
		}
	}
	return s
}

// Calls returns the calls, each with its words.
func (s Script) Calls() [][]string {
	var calls [][]string
	for _, places := range s.calls {
		var words []string
		for _, place := range places {
			words = append(words, s.words[place])
		}
		calls = append(calls, words)
	}
	return calls
}

// IsChain is whether each call is only done if the one before it has succeeded.
func (s Script) IsChain() bool {
	return !s.isText || !slices.ContainsFunc(s.words, func(one string) bool { return one == ";" || one == "||" })
}

// Set replaces a word of a call, and returns whether a script may have the new one.
func (s Script) Set(call, word int, text string) bool {
	isOther := func(c rune) bool {
		return c < utf8.RuneSelf && !('a' <= c && c <= 'z' || 'A' <= c && c <= 'Z' || '0' <= c && c <= '9') && !strings.ContainsRune("_-./,:+@%=", c)
	}
	if s.isText && strings.ContainsFunc(text, isOther) {
		return false
	}
	s.words[s.calls[call][word]] = text
	return true
}

// Args returns the words of the execution.
func (s Script) Args() []string {
	if s.isText {
		return []string{"/bin/sh", "-c", strings.Join(s.words, " ")}
	}
	return s.words
}

// Calls returns the calls of an execution's script, each with its words.
func Calls(exec *pb.ExecOp) [][]string { return ScriptOf(exec).Calls() }

// Words says for a person what is wrong with the words of an execution, of which llbm says why they are no script.
func Words(fault machine.ScriptFault, exec *pb.ExecOp) string {
	const page = `docs/FORMATS.md, "Views, scripts and applets"`
	if fault.Number == 71 {
		return fmt.Sprintf("%q is no command of llbm, which has those of %s", fault.Has, page)
	}
	place, err := strconv.Atoi(fault.Has)
	if err != nil || place < 0 {
		return "this is no script of llbm: " + page
	}
	if calls := Calls(exec); fault.Number == 72 && place < len(calls) && len(calls[place]) > 0 {
		return fmt.Sprintf("%s of llbm does not take these words: %s", calls[place][0], page)
	}
	args := exec.GetMeta().GetArgs()
	if text := args[len(args)-1]; place < len(text) {
		return fmt.Sprintf("a script of llbm does not have %q, which its byte %d is", text[place], place)
	}
	return "a script of llbm does not end where a command is missing"
}

// Check lets llbm read the scripts of rules, and returns an error for the first one that is none.
func (s Set) Check(ctx context.Context, program *machine.Program) error {
	var def pb.Definition
	var lines []int
	for _, rule := range s.Rules {
		if len(rule.Words) == 0 {
			continue
		}
		if err := add(&def, &pb.ExecOp{Meta: &pb.Meta{Args: rule.Words}, Mounts: []*pb.Mount{{Dest: "/"}}}); err != nil {
			return err
		}
		lines = append(lines, rule.Line)
	}
	if len(lines) == 0 {
		return nil
	}
	if err := add(&def, nil); err != nil {
		return err
	}
	entries, err := graph.Entries(&def)
	if err != nil {
		return err
	}
	faults, err := program.Scripts(ctx, entries)
	if err == nil && len(faults) > 0 && faults[0].Row < len(lines) {
		err = fmt.Errorf("the new words are not a script, fault %d %s: line %d", faults[0].Number, faults[0].Has, lines[faults[0].Row])
	}
	return err
}

// add adds an execution on the last one of a definition, or its terminal.
func add(def *pb.Definition, exec *pb.ExecOp) error {
	op := &pb.Op{}
	if exec != nil {
		op.Op = &pb.Op_Exec{Exec: exec}
	}
	if last := len(def.Def) - 1; last >= 0 {
		op.Inputs = []*pb.Input{{Digest: digest.FromBytes(def.Def[last])}}
	} else {
		exec.Mounts[0].Input = pb.Empty
	}
	entry, err := op.Marshal()
	def.Def = append(def.Def, entry)
	return err
}
