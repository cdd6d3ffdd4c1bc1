package machine

import (
	"context"
	"os"
	"path/filepath"
	"strconv"
	"strings"
	"testing"
	"time"

	"google.golang.org/grpc/codes"
	"google.golang.org/grpc/status"
)

func TestFaultsBecomeStatuses(t *testing.T) {
	for line, want := range map[string]struct {
		code codes.Code
		text string
	}{
		"fault 88 0 Source":       {codes.Unimplemented, "llbm: fault 88 0 Source"},
		"fault 89 3 Script 71 ls": {codes.InvalidArgument, "llbm: fault 89 3 Script 71 ls"},
		"fault 81 1":              {codes.InvalidArgument, "llbm: fault 81 1 Definition"},
		"fault 81 13":             {codes.ResourceExhausted, "llbm: fault 81 13 Definition"},
		"fault 121 context":       {codes.FailedPrecondition, "llbm: fault 121 context MissingLocal"},
		"fault 123":               {codes.ResourceExhausted, "llbm: fault 123 Opening"},
		"fault 185":               {codes.ResourceExhausted, "llbm: fault 185 TooLong"},
		"fault 171 141":           {codes.ResourceExhausted, "llbm: fault 171 141 Board: memory was refused"},
		"fault 171 135":           {codes.Internal, "llbm: fault 171 135 Board"},
		"fault 173 5":             {codes.Internal, "llbm: fault 173 5"},
		"what":                    {codes.Internal, "llbm: what"},
	} {
		if st := status.Convert(Fault(line)); st.Code() != want.code || st.Message() != want.text {
			t.Errorf("%q: %v %q", line, st.Code(), st.Message())
		}
	}
}

func TestAProgramThatIsNotLlbmIsRefusedInPlainWords(t *testing.T) {
	for path, end := range map[string]string{"/bin/true": `"`, "/bin/false": `": exit status 1`} {
		_, err := Find(context.Background(), path, Limits{})
		if err == nil || !strings.HasPrefix(err.Error(), path+" --version prints no version of llbm: \"") || !strings.HasSuffix(err.Error(), end) {
			t.Errorf("%s: %v", path, err)
		}
	}
}

func TestAProgramThatDoesNotEndIsNotWaitedFor(t *testing.T) {
	path := script(t, "echo so\nsleep 100000")
	ctx, cancel := context.WithTimeout(context.Background(), time.Millisecond)
	defer cancel()
	_, err := Find(ctx, path, Limits{})
	if err == nil || !strings.HasSuffix(err.Error(), ": it does not end") {
		t.Error(err)
	}
}

func TestAProgramThatEndsEarlySaysHow(t *testing.T) {
	for text, want := range map[string]string{
		"kill -9 $$":               "llbm: the program ended early (signal: killed): the kernel kills programs so where memory is short",
		"exit 5":                   "llbm: the program ended early (exit status 5), and wrote nothing to standard error",
		"echo oh >&2; kill -15 $$": "llbm: the program ended early (signal: terminated): oh",
	} {
		program := &Program{Path: script(t, text), Proved: true}
		if _, err := program.show(context.Background(), nil, 0); status.Convert(err).Message() != want {
			t.Errorf("%q: %v", text, err)
		}
	}
}

func TestMessagesAreBounded(t *testing.T) {
	run := stepped(t, &Program{Path: script(t, "head -c 200000 /dev/zero >&2; exit 3"), Proved: true})
	if err := run.wait(); err == nil || len(run.messages.String()) != mostMessages {
		t.Error(len(run.messages.String()), err)
	}
}

// page is the list of faults in the repository, if this folder is in one.
func page(t *testing.T) string {
	t.Helper()
	working, err := os.Getwd()
	if err == nil {
		working, err = filepath.EvalSymlinks(working)
	}
	if err != nil {
		t.Fatal(err)
	}
	data, err := os.ReadFile(filepath.Join(working, "../../../docs/FAULTS.md"))
	if err != nil {
		t.Skip("docs/FAULTS.md is not there")
	}
	return string(data)
}

func TestNamesAreThoseOfThePage(t *testing.T) {
	named := map[int]string{}
	for _, line := range strings.Split(page(t), "\n") {
		cells := strings.Split(line, "|")
		if len(cells) < 7 {
			continue
		}
		number, err := strconv.Atoi(strings.TrimSpace(cells[1]))
		if err == nil {
			named[number] += cells[2]
		}
	}
	for number, name := range names {
		if !strings.Contains(named[number], "::"+name+"`") {
			t.Errorf("%d %s: %s", number, name, named[number])
		}
	}
}
