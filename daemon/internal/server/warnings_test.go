package server

import (
	"context"
	"fmt"
	"os"
	"strings"
	"sync"
	"testing"

	"github.com/moby/buildkit/client"
	"github.com/moby/buildkit/client/llb"
	"github.com/moby/buildkit/solver/pb"
	digest "github.com/opencontainers/go-digest"
	"google.golang.org/protobuf/encoding/protowire"
	"llbm/daemon/internal/graph"
	"llbm/daemon/internal/notes"
)

// warnings builds a state, and returns the short texts of the warnings, and the error of the build.
func (d *daemon) warnings(t *testing.T, state llb.State, o client.SolveOpt) (string, error) {
	t.Helper()
	return d.warningsOf(t, marshal(t, state, llb.LinuxAmd64), o)
}

// warningsOf does that with a definition.
func (d *daemon) warningsOf(t *testing.T, def *llb.Definition, o client.SolveOpt) (string, error) {
	t.Helper()
	var shorts []string
	all, err := d.warned(t, def, o)
	for _, w := range all {
		shorts = append(shorts, string(w.Short))
	}
	return strings.Join(shorts, "\n"), err
}

// warned builds a definition, and returns the warnings, and the error of the build.
func (d *daemon) warned(t *testing.T, def *llb.Definition, o client.SolveOpt) ([]*client.VertexWarning, error) {
	t.Helper()
	ch := make(chan *client.SolveStatus)
	var all []*client.VertexWarning
	var done sync.WaitGroup
	done.Add(1)
	go func() {
		defer done.Done()
		for event := range ch {
			all = append(all, event.Warnings...)
		}
	}()
	_, err := d.Solve(context.Background(), def, o, ch)
	done.Wait()
	return all, err
}

const anExecution = "runs a process of the root mount (here runs applets, of which `rm`, `cp`, `envfile`, `listing` differ from programs): Execution"

func TestFieldsWithoutAnEffectAreWarnings(t *testing.T) {
	table, err := notes.BuiltIn()
	if err != nil {
		t.Fatal(err)
	}
	d := started(t, func(o *Options) { o.Notes = table })
	run := llb.Scratch().Run(llb.Args([]string{"true"}), llb.Dir("/"), llb.User("app"), llb.Network(llb.NetModeNone))
	want := "User has no effect: the user of the process\nNetwork has no effect: the network of the process\n" + anExecution
	if got, err := d.warnings(t, run.Root(), client.SolveOpt{}); got != want || err != nil {
		t.Errorf("%q %v", got, err)
	}
}

// The client's library lacks these fields and this attribute, as newer ones have them: their bytes are put after the op's.
func TestFieldsOfNewerVersionsAreWarnings(t *testing.T) {
	table, err := notes.BuiltIn()
	if err != nil {
		t.Fatal(err)
	}
	run := llb.Scratch().Run(llb.Args([]string{"true"}), llb.Dir("/"))
	run.AddMount("/in", llb.Local("src"), llb.Readonly)
	sent := marshal(t, run.Root(), llb.LinuxAmd64)
	def, err := graph.Rewrite(&pb.Definition{Def: sent.Def}, func(_ int, op *pb.Op) (bool, error) {
		source := op.GetSource()
		if source != nil {
			source.Attrs["local.metadatatransfer"] = "true"
		}
		return source != nil, nil
	})
	if err != nil {
		t.Fatal(err)
	}
	exec := len(def.Def) - 2
	meta := protowire.AppendBytes(protowire.AppendTag(nil, 12, protowire.BytesType), []byte{3})
	more := protowire.AppendBytes(protowire.AppendTag(nil, 1, protowire.BytesType), meta)
	more = protowire.AppendBytes(protowire.AppendTag(more, 6, protowire.BytesType), []byte("\x0a\x01d"))
	entry := protowire.AppendBytes(protowire.AppendTag(def.Def[exec], 2, protowire.BytesType), more)
	last, err := (&pb.Op{Inputs: []*pb.Input{{Digest: digest.FromBytes(entry)}}}).Marshal()
	if err != nil {
		t.Fatal(err)
	}
	given := &llb.Definition{Def: append(def.Def[:exec:exec], entry, last)}
	d := started(t, func(o *Options) { o.Notes = table })
	got, err := d.warningsOf(t, given, client.SolveOpt{LocalDirs: map[string]string{"src": t.TempDir()}})
	for _, want := range []string{
		"Attribute local.metadatatransfer has no effect: ", "ExitCodes has no effect: which statuses", "Devices has no effect: devices of the process",
	} {
		if err != nil || !strings.Contains(got, want) {
			t.Errorf("%q, without %q %v", got, want, err)
		}
	}
}

// literally lets definitions run as they were sent. Else these are rewritten by their trees, and then nothing differs.
func literally(o *Options) { o.Literal = true }

func TestWhatEndsOtherwiseInBuildKitIsAWarning(t *testing.T) {
	d, alike := started(t, literally), started(t, nil)
	file := llb.Scratch().File(llb.Mkfile("/a", 0o604, []byte("1")))
	other := llb.Scratch().File(llb.Mkfile("/b", 0o644, nil))
	removed := file.File(llb.Rm("/a")).File(llb.Mkfile("/c", 0o644, nil))
	again := llb.Scratch().File(llb.Mkfile("/a", 0o640, []byte("2")))
	into := llb.Scratch().File(llb.Mkdir("/d/e", 0o700, llb.WithParents(true)))
	from := llb.Scratch().File(llb.Mkdir("/d/e", 0o755, llb.WithParents(true)).Mkdir("/d/f", 0o755))
	made := into.File(llb.Copy(from, "/d", "/"))
	run := llb.Scratch().Run(llb.Args([]string{"write", "/f", "x"}), llb.Dir("/")).Root()
	for name, one := range map[string]struct {
		state llb.State
		want  string
	}{
		"nothing differs":              {llb.Merge([]llb.State{file, other}).File(llb.Copy(other, "/b", "/n/", &llb.CopyInfo{CreateDestPath: true})), ""},
		"a file over a file":           {file.File(llb.Mkdir("/x", 0o755).Mkfile("/a", 0o755, nil)), "action 1: /a has mode 0604 (here 0755): MkfileOver"},
		"a removal that counts":        {llb.Merge([]llb.State{again, removed}), "/a is missing (here a file): MergeLayers"},
		"a removal of what is not":     {llb.Merge([]llb.State{other, removed}), ""},
		"a removal that comes first":   {llb.Merge([]llb.State{removed, again}), ""},
		"what a later action removes":  {file.File(llb.Mkfile("/a", 0o755, nil).Rm("/a")), ""},
		"what follows of a difference": {file.File(llb.Mkfile("/a", 0o755, nil)).File(llb.Mkdir("/y", 0o755)), "action 0: /a has mode 0604 (here 0755): MkfileOver"},
		"a directory over another one": {made, "action 0: /d/e has mode 0755 (here 0700): NestedDirectory"},
		"over what an execution made":  {run.File(llb.Mkfile("/f", 0o600, nil)), anExecution + "\naction 0: /f has mode 0644 (here 0600): MkfileOver"},
		"an action after one that is new": {
			file.File(llb.Copy(other, "/b", "/new/", &llb.CopyInfo{CreateDestPath: true}).Mkfile("/a", 0o755, nil)),
			"action 1: /a has mode 0604 (here 0755): MkfileOver",
		},
	} {
		if got, err := d.warnings(t, one.state, client.SolveOpt{}); got != one.want || err != nil {
			t.Errorf("%s: %q, not %q %v", name, got, one.want, err)
		}
		want := ""
		if strings.HasPrefix(one.want, anExecution) {
			want = one.want
		}
		if got, err := alike.warnings(t, one.state, client.SolveOpt{}); got != want || err != nil {
			t.Errorf("%s: %q, not %q %v", name, got, want, err)
		}
	}
}

func TestAFailureThatBuildKitDoesNotHaveIsAWarning(t *testing.T) {
	d := started(t, literally)
	file := llb.Scratch().File(llb.Mkfile("/a", 0o604, nil))
	got, err := d.warnings(t, file.File(llb.Mkdir("/a", 0o755)), client.SolveOpt{})
	if err == nil || got != "action 0: does not fail (here: /a is a file): MkdirOver" {
		t.Errorf("%q %v", got, err)
	}
	got, err = d.warnings(t, file.File(llb.Rm("/a/b", llb.WithAllowNotFound(true))), client.SolveOpt{})
	if err != nil || got != "action 0: fails: /a/b is below a file: RmBelowFile" {
		t.Errorf("%q %v", got, err)
	}
}

// changed returns the definition of a state in which a function changed some ops.
func changed(t *testing.T, state llb.State, change func(*pb.Op) bool) *llb.Definition {
	t.Helper()
	def := marshal(t, state, llb.LinuxAmd64)
	out, err := graph.Rewrite(&pb.Definition{Def: def.Def}, func(_ int, op *pb.Op) (bool, error) { return change(op), nil })
	if err != nil {
		t.Fatal(err)
	}
	return &llb.Definition{Def: out.Def}
}

// BuildKit refuses these ops, or its daemon dies of them. What it refuses is rewritten to what fails.
func TestWhatBuildKitRefusesFailsOrIsAWarning(t *testing.T) {
	file := llb.Scratch().File(llb.Mkfile("/a", 0o644, nil))
	other := llb.Scratch().File(llb.Mkfile("/b", 0o644, nil))
	merged := llb.Merge([]llb.State{file, other, llb.Scratch().File(llb.Mkfile("/c", 0o644, nil))})
	second := changed(t, llb.Scratch().File(llb.Mkfile("/m", 0o644, nil)), func(op *pb.Op) bool {
		for _, action := range op.GetFile().GetActions() {
			action.SecondaryInput = 0
		}
		return op.GetFile() != nil
	})
	selected := changed(t, file.File(llb.Rm("/a").Copy(other, "/b", "/b").Copy(other, "/missing", "/n")), func(op *pb.Op) bool {
		actions := op.GetFile().GetActions()
		if len(actions) < 3 {
			return false
		}
		actions[0].Output, actions[1].Input, actions[1].Output, actions[2].Output = -1, 0, 0, -1
		return true
	})
	short := changed(t, merged, func(op *pb.Op) bool {
		if op.GetMerge() != nil {
			op.GetMerge().Inputs = op.GetMerge().Inputs[:2]
		}
		return op.GetMerge() != nil
	})
	const dies = "its daemon dies (here lays what is listed): ShortMerge"
	for name, one := range map[string]struct {
		def            *llb.Definition
		fails, literal string // what the error says, and the warning where nothing is rewritten
		warns          string
	}{
		"the action itself as its second input": {
			second, "the second input depends on the action", "action 0: fails: the second input depends on the action: SecondInput", "",
		},
		"a copy of what is missing that is not done": {selected, "/missing", "", ""},
		"a merge that lists too few":                 {short, "", dies, dies},
	} {
		got, err := started(t, nil).warningsOf(t, one.def, client.SolveOpt{})
		if got != one.warns || (err != nil) != (one.fails != "") || err != nil && !strings.Contains(err.Error(), one.fails) {
			t.Errorf("%s: %q, %v", name, got, err)
		}
		got, err = started(t, literally).warningsOf(t, one.def, client.SolveOpt{})
		if !strings.Contains(got, one.literal) || (err != nil) != (one.literal == "") {
			t.Errorf("%s, literally: %q, not %q %v", name, got, one.literal, err)
		}
	}
}

func TestAnInputThatNamesNothingAndIsNotNeededIsAWarning(t *testing.T) {
	state := llb.Scratch().File(llb.Mkfile("/m", 0o1644, nil))
	def := changed(t, state, func(op *pb.Op) bool {
		if op.Op == nil {
			op.Inputs = append(op.Inputs, &pb.Input{Digest: digest.FromString("none")})
		}
		return op.Op == nil
	})
	for _, literal := range []bool{false, true} {
		d := started(t, func(o *Options) { o.Literal = literal })
		got, err := d.warningsOf(t, def, client.SolveOpt{})
		if want := "entry 1 input 1: its daemon dies (here takes it): UnknownInput"; err != nil || !strings.Contains(got, want) {
			t.Errorf("literal %t: %q %v", literal, got, err)
		}
	}
}

func TestAnExecutionOfWhatDiffersIsAWarning(t *testing.T) {
	d := started(t, literally)
	state := llb.Scratch().File(llb.Mkfile("/a", 0o604, nil)).File(llb.Mkfile("/a", 0o755, nil))
	run := state.Run(llb.Args([]string{"true"}), llb.Dir("/")).Root().File(llb.Mkfile("/a", 0o600, nil))
	want := anExecution + "\naction 0: /a has mode 0604 (here 0755): MkfileOver\nits inputs differ, so what it makes in BuildKit is not known: Execution"
	if got, err := d.warnings(t, run, client.SolveOpt{}); err != nil || got != want {
		t.Errorf("%q %v", got, err)
	}
}

func TestPathsWithOneCauseAreOneWarning(t *testing.T) {
	d := started(t, literally)
	files := map[string]string{}
	for i := 0; i < 30; i++ {
		files[fmt.Sprintf("d/%02d/f", i)] = "x"
	}
	root := directory(t, files)
	for i := 0; i < 30; i++ {
		if err := os.Chmod(fmt.Sprintf("%s/d/%02d", root, i), 0o750); err != nil {
			t.Fatal(err)
		}
	}
	source := llb.Local("src")
	state := source.File(llb.Copy(source, "/d", "/", &llb.CopyInfo{Mode: modeOf(0o711)}))
	all, err := d.warned(t, marshal(t, state), client.SolveOpt{LocalDirs: map[string]string{"src": root}})
	if err != nil || len(all) != 1 {
		t.Fatal(all, err)
	}
	if got := string(all[0].Short); got != "action 0: /d/00 has mode 0711 (here 0750): NestedDirectory, and 29 more" {
		t.Error(got)
	}
	if details := all[0].Detail; len(details) != 20 || !strings.HasPrefix(string(details[0]), "NestedDirectory: a directory below the source") ||
		string(details[19]) != "action 0: /d/19 has mode 0711 (here 0750): NestedDirectory" {
		t.Errorf("%q", details)
	}
}

func modeOf(mode os.FileMode) *os.FileMode { return &mode }

func TestLayersThatBuildKitWouldMakeAreAWarning(t *testing.T) {
	d := started(t, nil)
	one := llb.Scratch().File(llb.Mkfile("/a", 0o600, nil))
	for want, state := range map[string]llb.State{
		"": one,
		"the image has one layer, where BuildKit makes up to 2: one for each step that changes files": one.File(llb.Mkfile("/b", 0o600, nil)),
	} {
		var archive buffer
		got, err := d.warnings(t, state, client.SolveOpt{Exports: []client.ExportEntry{toTar("oci", &archive, nil)}})
		if got != want || err != nil {
			t.Errorf("%q %v", got, err)
		}
	}
}
