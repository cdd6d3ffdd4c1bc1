package server

import (
	"context"
	"fmt"
	"os"
	"path/filepath"
	"slices"
	"strings"
	"testing"
	"time"

	"github.com/moby/buildkit/client"
	"github.com/moby/buildkit/client/llb"
	digest "github.com/opencontainers/go-digest"
	"llbm/daemon/internal/notes"
	"llbm/daemon/internal/records"
)

// Each of these ends otherwise by llbm's own rules.
func TestByTheTreesOfABuildItEndsAsInBuildKit(t *testing.T) {
	table, err := notes.BuiltIn()
	if err != nil {
		t.Fatal(err)
	}
	d := started(t, func(o *Options) { o.Notes = table })
	file := llb.Scratch().File(llb.Mkfile("/a", 0o604, []byte("1")))
	source := llb.Scratch().File(llb.Mkdir("/d/e", 0o700, llb.WithParents(true)).Mkfile("/d/e/f", 0o600, []byte("2")))
	contents := &llb.CopyInfo{CopyDirContentsOnly: true, CreateDestPath: true}
	owned := &llb.CopyInfo{CreateDestPath: true, ChownOpt: &llb.ChownOpt{User: &llb.UserOpt{UID: 7}, Group: &llb.UserOpt{UID: 8}}}
	removed := file.File(llb.Rm("/a")).File(llb.Mkfile("/c", 0o644, nil))
	nested := llb.Scratch().File(llb.Mkdir("/d/e", 0o755, llb.WithParents(true)).Mkfile("/d/e/g", 0o644, nil))
	for name, one := range map[string]struct {
		state llb.State
		want  string
	}{
		"MkfileOver":      {file.File(llb.Mkfile("/a", 0o755, []byte("2"))), "0604 0:0 a \"2\"\n"},
		"MkdirOver":       {file.File(llb.Mkdir("/a", 0o755)), "0604 0:0 a \"1\"\n"},
		"ContentsTarget":  {llb.Scratch().File(llb.Copy(source, "/d/e", "/n", contents)), "0755 0:0 n/ \"\"\n0600 0:0 n/f \"2\"\n"},
		"ParentOwner":     {llb.Scratch().File(llb.Copy(file, "/a", "/n/m", owned)), "0755 7:8 n/ \"\"\n0604 7:8 n/m \"1\"\n"},
		"NestedDirectory": {nested.File(llb.Copy(source, "/d", "/")), "0755 0:0 d/ \"\"\n0700 0:0 d/e/ \"\"\n0600 0:0 d/e/f \"2\"\n0644 0:0 d/e/g \"\"\n"},
		"MergeLayers":     {llb.Merge([]llb.State{file, removed}), "0644 0:0 c \"\"\n"},
	} {
		got, err := d.solved(t, one.state, client.SolveOpt{})
		if err != nil || got != one.want {
			t.Errorf("%s: %q, not %q: %v", name, got, one.want, err)
		}
		if said, err := d.warnings(t, one.state, client.SolveOpt{}); said != "" || err != nil {
			t.Errorf("%s: %q %v", name, said, err)
		}
	}
}

// Of a copy onto what an execution made, what it copies is known.
func TestWhatIsCopiedCanBeKnownAlone(t *testing.T) {
	d := started(t, func(o *Options) { o.Strict = true })
	run := llb.Scratch().Run(llb.Args([]string{"write", "/f", "x"}), llb.Dir("/")).Root()
	source := llb.Scratch().File(llb.Mkdir("/d", 0o700).Mkfile("/d/f", 0o600, nil))
	contents := &llb.CopyInfo{CopyDirContentsOnly: true, CreateDestPath: true, AllowWildcard: true}
	got, err := d.solved(t, run.File(llb.Copy(source, "/d", "/n", contents)), client.SolveOpt{})
	if want := "0644 0:0 f \"x\\n\"\n0755 0:0 n/ \"\"\n0600 0:0 n/f \"\"\n"; err != nil || got != want {
		t.Errorf("%q, not %q: %v", got, want, err)
	}
	missing := &llb.CopyInfo{AllowWildcard: true, AllowEmptyWildcard: true}
	_, err = d.solved(t, run.File(llb.Copy(source, "/m/*", "/n/", missing)), client.SolveOpt{})
	if err == nil || !strings.Contains(err.Error(), "action 0 fault 21 NotFound: /m is missing") {
		t.Error(err)
	}
}

func TestWhereBuildKitFailsTheBuildFailsForTheSameReason(t *testing.T) {
	d := started(t, nil)
	file := llb.Scratch().File(llb.Mkfile("/a", 0o604, nil))
	wild := &llb.CopyInfo{AllowWildcard: true, AllowEmptyWildcard: true}
	for name, one := range map[string]struct {
		state llb.State
		want  string
	}{
		"RmBelowFile":  {file.File(llb.Mkdir("/x", 0o755).Rm("/a/b", llb.WithAllowNotFound(true))), "action 1 fault 21 NotFound: /a/b is below a file"},
		"WildcardBase": {llb.Scratch().File(llb.Copy(file, "/m/*", "/", wild)), "action 0 fault 21 NotFound: /m is missing"},
		"EmptyCopy":    {llb.Scratch().File(llb.Copy(file, "/m*", "/x/y", wild)), "action 0 fault 21 NotFound: /x is missing"},
	} {
		_, err := d.solved(t, one.state, client.SolveOpt{})
		if err == nil || !strings.Contains(err.Error(), one.want) {
			t.Errorf("%s: %v", name, err)
		}
	}
}

func TestAStrictBuildFailsWhereBuildKitEndsOtherwise(t *testing.T) {
	run := llb.Scratch().Run(llb.Args([]string{"write", "/f", "x"}), llb.Dir("/")).Root()
	over := run.File(llb.Mkfile("/f", 0o600, nil))
	want := "the build is strict: action 0: /f has mode 0644 (here 0600): MkfileOver"
	asked := func(value string) client.SolveOpt {
		return client.SolveOpt{FrontendAttrs: map[string]string{"llbm:strict": value}}
	}
	d, strict := started(t, nil), started(t, func(o *Options) { o.Strict = true })
	for name, one := range map[string]struct {
		daemon *daemon
		state  llb.State
		given  client.SolveOpt
		want   string
	}{
		"by the daemon's option":         {strict, over, client.SolveOpt{}, want},
		"by the client's option":         {d, over, asked("true"), want},
		"not asked for":                  {d, over, asked("false"), ""},
		"neither true nor false":         {d, over, asked("maybe"), "llbm:strict=maybe: it is true or false"},
		"an execution alone":             {strict, run, client.SolveOpt{}, ""},
		"what is equal by its rewriting": {strict, llb.Scratch().File(llb.Mkfile("/f", 0o604, nil)).File(llb.Mkfile("/f", 0o600, nil)), client.SolveOpt{}, ""},
	} {
		_, err := one.daemon.solved(t, one.state, one.given)
		if (err != nil) != (one.want != "") || err != nil && !strings.Contains(err.Error(), one.want) {
			t.Errorf("%s: %v", name, err)
		}
	}
}

// An op of which llbm would have to do more actions than it takes becomes several, and the client's own actions are named.
func TestAnOpThatBecomesManyActionsIsDivided(t *testing.T) {
	const files = 520
	name := func(i int) string { return fmt.Sprintf("/f%03d", i) }
	first, second := llb.Mkfile(name(0), 0o604, []byte("1")), llb.Mkfile(name(0), 0o755, []byte("2"))
	want := ""
	for i := range files {
		if i > 0 {
			first, second = first.Mkfile(name(i), 0o604, []byte("1")), second.Mkfile(name(i), 0o755, []byte("2"))
		}
		want += fmt.Sprintf("0604 0:0 %s \"2\"\n", name(i)[1:])
	}
	d := started(t, func(o *Options) { o.Strict = true })
	over := llb.Scratch().File(first).File(second)
	if got, err := d.solved(t, over, client.SolveOpt{}); err != nil || got != want {
		t.Errorf("%.100q: %v", got, err)
	}
	_, err := d.solved(t, llb.Scratch().File(first).File(second.Rm("/missing")), client.SolveOpt{})
	if want := fmt.Sprintf("action %d fault 21 NotFound", files); err == nil || !strings.Contains(err.Error(), want) {
		t.Errorf("%v, not %q", err, want)
	}
}

// To BuildKit a file of the same size, mode, owner and time is not changed, so a merge can have the one before it.
func TestAMergeThatCanHaveAnOldFileIsAWarning(t *testing.T) {
	root := directory(t, map[string]string{"a": "1", "b": "2", "c": "1"})
	for name, at := range map[string]time.Time{"a": time.Unix(1e9, 7), "b": time.Unix(1e9, 7), "c": time.Unix(1e9, 7)} {
		if err := os.Chtimes(filepath.Join(root, name), at, at); err != nil {
			t.Fatal(err)
		}
	}
	d := started(t, nil)
	source, other := llb.Local("src"), llb.Scratch().File(llb.Mkfile("/z", 0o644, nil))
	for from, want := range map[string]string{"/b": "/a can be the file that was there before, which has its size and time: SameTime", "/c": ""} {
		state := llb.Merge([]llb.State{other, source.File(llb.Copy(source, from, "/a"))})
		got, err := d.warnings(t, state, client.SolveOpt{LocalDirs: map[string]string{"src": root}})
		if err != nil || got != want {
			t.Errorf("%s: %q, not %q: %v", from, got, want, err)
		}
	}
}

// Another library may write fields in another order than BuildKit's.
func TestADefinitionOfAnotherLibraryEndsAsInBuildKit(t *testing.T) {
	d := started(t, func(o *Options) { o.Strict = true })
	file := llb.Scratch().File(llb.Mkfile("/a", 0o604, []byte("1")))
	def := marshal(t, file.File(llb.Mkfile("/a", 0o755, []byte("2"))))
	for k, entry := range def.Def {
		fields := records.Of(entry)
		slices.Reverse(fields)
		def.Def[k] = records.Message(fields)
		before, after := digest.FromBytes(entry).String(), digest.FromBytes(def.Def[k]).String()
		for later := k + 1; later < len(def.Def); later++ {
			def.Def[later] = []byte(strings.ReplaceAll(string(def.Def[later]), before, after))
		}
	}
	var archive buffer
	o := client.SolveOpt{Exports: []client.ExportEntry{toTar("tar", &archive, nil)}}
	if _, err := d.Solve(context.Background(), def, o, nil); err != nil {
		t.Fatal(err)
	}
	if got, want := listed(t, archive.Bytes()), "0604 0:0 a \"2\"\n"; got != want {
		t.Errorf("%q, not %q", got, want)
	}
}
