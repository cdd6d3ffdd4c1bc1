package llbmtest

import (
	"bytes"
	"errors"
	"fmt"
	"os"
	"os/exec"
	"path/filepath"
	"strings"
	"testing"

	llbm "llbm.example/llbm/bindings/go"
)

const (
	// program is the variable that names the program llbm.
	program = "LLBM"
	// programOfTools is the variable that names the program llbm-tools; by default it is on the path.
	programOfTools = "LLBM_TOOLS"
)

// errNothing is that there is neither the library nor the program.
var errNothing = errors.New("there is nothing to solve it with")

// run solves the graph: in this process, or else by the program.
func (s *solving) run(t testing.TB) (string, error) {
	t.Helper()
	text, err := s.runHere()
	if !errors.Is(err, errNothing) {
		return text, err
	}
	path := os.Getenv(program)
	if path == "" {
		t.Skipf("skipped by llbmtest: %v, and %s names no program llbm", err, program)
	}
	return s.runBy(path)
}

// runBy solves the graph by a program.
func (s *solving) runBy(path string) (string, error) {
	return s.inFolder(func(_ string, given []string) (string, error) {
		command := exec.Command(path, append([]string{"run"}, given...)...)
		command.Stdin = bytes.NewReader(s.definition)
		out, err := command.Output()
		if one := (*exec.ExitError)(nil); errors.As(err, &one) {
			return "", llbm.FaultOf(one.ExitCode(), string(one.Stderr))
		}
		return string(out), err
	})
}

// inFolder calls a function with the files of the definition and of the trees, the latter as NAME=FILE.
func (s *solving) inFolder(call func(definition string, given []string) (string, error)) (string, error) {
	folder, err := os.MkdirTemp("", "llbmtest-")
	if err != nil {
		return "", err
	}
	defer os.RemoveAll(folder)
	definition := filepath.Join(folder, "definition")
	if err := os.WriteFile(definition, s.definition, 0o600); err != nil {
		return "", err
	}
	var given []string
	for name, text := range s.trees {
		file := filepath.Join(folder, fmt.Sprintf("%d.tree", len(given)))
		if err := os.WriteFile(file, []byte(text), 0o600); err != nil {
			return "", err
		}
		given = append(given, name+"="+file)
	}
	return call(definition, given)
}

// tools returns the path of llbm-tools, or nothing if it is not there.
func tools() string {
	place := os.Getenv(programOfTools)
	if place == "" {
		place = "llbm-tools"
	}
	found, err := exec.LookPath(place)
	if err != nil {
		return ""
	}
	return found
}

// called returns llbm-tools with a command of it, the program where a variable names one, and further words.
func called(tools string, command []string, words ...string) *exec.Cmd {
	if path := os.Getenv(program); path != "" {
		command = append(command, "--llbm", path)
	}
	return exec.Command(tools, append(command, words...)...)
}

// reason returns why the graph is refused or fails: the lines of the fault and, if llbm-tools is there, what it says of them.
func (s *solving) reason(err error) string {
	fault := (*llbm.Fault)(nil)
	if !errors.As(err, &fault) {
		return err.Error()
	}
	path := tools()
	if path == "" {
		return fmt.Sprintf("%s(llbm-tools, which says why, is neither in %s nor on the path)", fault.Messages, programOfTools)
	}
	said, failed := s.inFolder(func(definition string, given []string) (string, error) {
		command := called(path, []string{"run"}, append([]string{"run"}, given...)...)
		input, err := os.Open(definition)
		if err != nil {
			return "", err
		}
		defer input.Close()
		var messages bytes.Buffer
		command.Stdin, command.Stderr = input, &messages
		if err := command.Run(); err == nil {
			return "", errors.New("it does not fail there")
		}
		return messages.String(), nil
	})
	if failed != nil || !strings.Contains(said, strings.TrimSpace(fault.Messages)) {
		return fmt.Sprintf("%s(llbm-tools says nothing of it: %v)", fault.Messages, failed)
	}
	return said
}

// SameAsBuildKit checks that BuildKit makes the same tree of the graph, by the rules that llbm-rules has; where it does not, the
// test has the paths that differ, each with the rule, and the notes of what has no effect here. Commands are taken to make there
// what they make here. Without llbm-tools the test is skipped.
func (r *Result) SameAsBuildKit() *Result {
	r.t.Helper()
	path := tools()
	if path == "" {
		r.t.Skipf("skipped by llbmtest: llbm-tools, which has BuildKit's rules, is neither in %s nor on the path", programOfTools)
	}
	said, err := r.solved.inFolder(func(definition string, given []string) (string, error) {
		command := called(path, []string{"explain", "buildkit"}, append([]string{definition}, given...)...)
		said, err := command.CombinedOutput()
		return string(said), err
	})
	if err != nil {
		r.t.Errorf("BuildKit makes another tree:\n%s", said)
	}
	return r
}
