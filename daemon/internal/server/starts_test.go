package server

import (
	"context"
	"fmt"
	"os"
	"path/filepath"
	"slices"
	"strings"
	"testing"

	"github.com/moby/buildkit/client"
	"github.com/moby/buildkit/client/llb"
	"github.com/moby/buildkit/frontend/dockerfile/builder"
	gwclient "github.com/moby/buildkit/frontend/gateway/client"
)

// noting starts a daemon whose llbm notes its starts, and returns it with a function that returns the words of those since the last
// call of the function.
func noting(t *testing.T) (*daemon, func() []string) {
	t.Helper()
	folder := t.TempDir()
	path, noted := filepath.Join(folder, "llbm"), filepath.Join(folder, "noted")
	text := fmt.Sprintf("#!/bin/sh\nprintf '%%s\\n' \"$*\" >> %s\nexec %s \"$@\"\n", noted, llbm(t))
	if err := os.WriteFile(path, []byte(text), 0o700); err != nil {
		t.Fatal(err)
	}
	d := started(t, func(o *Options) { o.Program = path })
	starts := func() []string {
		data, err := os.ReadFile(noted)
		if err == nil {
			err = os.Truncate(noted, 0)
		}
		if err != nil {
			t.Fatal(err)
		}
		var out []string
		for _, line := range strings.Split(strings.TrimSuffix(string(data), "\n"), "\n") {
			words, _, _ := strings.Cut(line, " /")
			out = append(out, words)
		}
		return out
	}
	starts() // for the version
	return d, starts
}

// Only where an execution or a written file is beside a source llbm is asked, before it runs, how contents have to be given.
func TestABuildStartsLlbmOnceUnlessItHasToPlan(t *testing.T) {
	d, starts := noting(t)
	local := llb.Local("src")
	copied := llb.Scratch().File(llb.Copy(local, "/a", "/b")).File(llb.Copy(local, "/a", "/c"))
	run := func(script string) llb.State {
		return local.Run(llb.Args([]string{"/bin/sh", "-c", script}), llb.Dir("/")).Root()
	}
	step, plan := []string{"step"}, []string{"show --plan", "step"}
	for name, c := range map[string]struct {
		state llb.State
		want  []string
		has   string
	}{
		"a file":                        {llb.Scratch().File(llb.Mkfile("/a", 0o644, []byte("x"))), step, `a "x"`},
		"an execution without a source": {llb.Scratch().Run(llb.Args([]string{"write", "/a", "y"}), llb.Dir("/")).Root(), step, `a "y\n"`},
		"a source":                      {local, step, `a "x\xff"`},
		"two copies":                    {copied, step, `c "x\xff"`},
		"a file over a source":          {local.File(llb.Mkfile("/b", 0o644, []byte("y"))), plan, `b "y"`},
		"the byte 255 over a source":    {local.File(llb.Mkfile("/b", 0o644, []byte("\xff"))), plan, `b "\xff"`},
		"an execution":                  {run("cp /a /b"), plan, `b "x\xff"`},
		"a digest":                      {run("sha256 /a /b"), plan, `b "41add8152e6530cd1f5030084f5c4fd3a28b735897c8c8801e3f4eec08c62028`},
	} {
		got, err := d.solved(t, c.state, client.SolveOpt{LocalDirs: map[string]string{"src": directory(t, map[string]string{"a": "x\xff"})}})
		if err != nil || !strings.Contains(got, c.has) {
			t.Errorf("%s: %s %v", name, got, err)
		}
		if got := starts(); !slices.Equal(got, c.want) {
			t.Errorf("%s: %q", name, got)
		}
	}
}

func TestARefusedDefinitionIsReadOnce(t *testing.T) {
	d, starts := noting(t)
	make := llb.Args([]string{"make"})
	for name, c := range map[string]struct {
		state       llb.State
		start, want string
	}{
		"by its session":                  {llb.Scratch().Run(make).Root(), "step", " Script 71 make"},
		"while its sources are asked for": {llb.Local("none").Run(make).Root(), "show --plan", " Script 71 make"},
		"after a source that is not sent": {llb.Merge([]llb.State{llb.Local("none"), llb.Image("alpine")}), "show --plan", "fault 88 1 Source"},
		"not":                             {llb.Local("none"), "show --plan", "no access allowed to dir"},
	} {
		build := func(ctx context.Context, g gwclient.Client) (*gwclient.Result, error) {
			return g.Solve(ctx, gwclient.SolveRequest{Definition: marshal(t, c.state).ToPB(), Evaluate: true})
		}
		dirs := map[string]string{"other": t.TempDir()}
		if _, err := d.Build(t.Context(), client.SolveOpt{LocalDirs: dirs}, "", build, nil); err == nil || !strings.Contains(err.Error(), c.want) {
			t.Errorf("%s: %v", name, err)
		}
		if got := starts(); !slices.Equal(got, []string{c.start}) {
			t.Errorf("%s: %q", name, got)
		}
	}
}

func TestADockerfileOfTwoCopiesStartsLlbmThreeTimes(t *testing.T) {
	d, starts := noting(t)
	dirs := map[string]string{
		"dockerfile": directory(t, map[string]string{"Dockerfile": "FROM scratch\nCOPY a /b\nCOPY a /c\n"}),
		"context":    directory(t, map[string]string{"a": "x"}),
	}
	var archive buffer
	o := client.SolveOpt{LocalDirs: dirs, Exports: []client.ExportEntry{toTar("tar", &archive, nil)}}
	ctx, cancel := context.WithTimeout(context.Background(), patience)
	defer cancel()
	if _, err := d.Build(ctx, o, "", builder.Build, nil); err != nil {
		t.Fatal(err)
	}
	if got := listed(t, archive.Bytes()); !strings.Contains(got, ` b "x"`) || !strings.Contains(got, ` c "x"`) {
		t.Error(got)
	}
	if got := starts(); !slices.Equal(got, []string{"step", "step", "step"}) {
		t.Errorf("%q", got)
	}
}
