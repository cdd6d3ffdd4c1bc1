package server

import (
	"os"
	"strings"
	"testing"

	"github.com/moby/buildkit/client"
	"github.com/moby/buildkit/client/llb"
)

// Where the program that compares dies or is missing, builds go on, and each says once that not all was compared. They
// run as far as possible by BuildKit's rules.
func TestABuildGoesOnWithoutItsComparison(t *testing.T) {
	const notAll = "not all was compared with what BuildKit would make: "
	file := llb.Scratch().File(llb.Mkfile("/a", 0o1604, nil))
	state := llb.Merge([]llb.State{file, llb.Scratch().File(llb.Mkfile("/b", 0o1644, nil))})
	for name, one := range map[string]struct {
		change func(*Options)
		why    string
	}{
		"it dies":       {func(o *Options) { o.Rules = as(t, dyingName) }, "dies: exit status 2: panic: these rules die"},
		"it is missing": {func(o *Options) { o.Rules = "" }, "the program llbm-rules is missing: dev/dev daemon builds it beside llbmd"},
	} {
		d := started(t, one.change)
		got, err := d.warnings(t, state, client.SolveOpt{})
		if err != nil || !strings.HasPrefix(got, notAll+one.why) || strings.Count(got, notAll) != 1 {
			t.Errorf("%s: %q %v", name, got, err)
		}
		if got, err := d.solved(t, state, client.SolveOpt{}); err != nil || got != "0604 0:0 a \"\"\n0644 0:0 b \"\"\n" {
			t.Errorf("%s: %q %v", name, got, err)
		}
		strict := started(t, func(o *Options) {
			one.change(o)
			o.Strict = true
		})
		if got, err := strict.solved(t, state, client.SolveOpt{}); err == nil || !strings.Contains(err.Error(), "the build is strict: "+notAll+one.why) {
			t.Errorf("%s, strict: %q %v", name, got, err)
		}
	}
}

// A build finds a process that compares, which was started before it, and after it the next one waits. None is left of the daemon.
func TestOneProcessWaitsForTheNextComparison(t *testing.T) {
	d := started(t, nil)
	last := 0
	for range 3 {
		eventually(t, "another one waits", func() bool { return d.builds.Shared.Rules.Waiting() != 0 && d.builds.Shared.Rules.Waiting() != last })
		last = d.builds.Shared.Rules.Waiting()
		if _, err := d.solved(t, llb.Scratch().File(llb.Mkfile("/a", 0o600, nil)), client.SolveOpt{}); err != nil {
			t.Fatal(err)
		}
	}
	eventually(t, "nothing else runs", func() bool { return len(d.children(t)) == 0 })
	d.stop()
	if left := childrenOf(t, os.Getpid()); len(left) > 0 {
		t.Error(left)
	}
}

// A build without a file op and without a merge starts no process to compare.
func TestABuildWithNothingToCompareHasNoComparison(t *testing.T) {
	d := started(t, func(o *Options) { o.Rules = as(t, dyingName) })
	run := llb.Scratch().Run(llb.Args([]string{"write", "/f", "x"}), llb.Dir("/")).Root()
	if got, err := d.warnings(t, run, client.SolveOpt{}); err != nil || got != anExecution {
		t.Errorf("%q %v", got, err)
	}
}

// Two names of a file in a source are one file to BuildKit.
func TestAFileWithOtherNamesThatIsWrittenIsAWarning(t *testing.T) {
	root := directory(t, map[string]string{"a": "1"})
	if err := os.Link(root+"/a", root+"/b"); err != nil {
		t.Fatal(err)
	}
	d := started(t, nil)
	opt := client.SolveOpt{LocalDirs: map[string]string{"src": root}}
	got, err := d.warnings(t, llb.Local("src").File(llb.Mkfile("/b", 0o644, []byte("2"))), opt)
	if err != nil || got != "action 0: writes a file that has other names in its source: HardLinks" {
		t.Errorf("%q %v", got, err)
	}
	if got, err := d.warnings(t, llb.Local("src").File(llb.Mkfile("/c", 0o644, []byte("2"))), opt); err != nil || got != "" {
		t.Errorf("%q %v", got, err)
	}
}

func TestAResultOfManyLayersIsAWarning(t *testing.T) {
	state := llb.Scratch()
	for range 401 {
		state = state.File(llb.Mkfile("/a", 0o644, nil))
	}
	got, err := started(t, nil).warnings(t, state, client.SolveOpt{})
	if want := "can fail: overlayfs takes about 500 (here takes any number): Depth"; err != nil || got != want {
		t.Errorf("%q %v", got, err)
	}
}
