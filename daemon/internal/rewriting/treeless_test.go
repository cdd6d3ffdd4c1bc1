package rewriting

import (
	"context"
	"fmt"
	"testing"

	"github.com/moby/buildkit/solver/pb"
	"llbm/daemon/internal/rules"
	"llbm/daemon/internal/tree"
)

func removal(path string) *pb.FileAction {
	rm := &pb.FileActionRm{Path: path, AllowWildcard: true}
	return onto(&pb.FileAction{Action: &pb.FileAction_Rm{Rm: rm}}, 0, nothing, 0)
}

func copying(src, dest string, change func(*pb.FileActionCopy)) *pb.FileAction {
	c := &pb.FileActionCopy{Src: src, Dest: dest, Mode: keptMode, Timestamp: -1}
	if change != nil {
		change(c)
	}
	return onto(&pb.FileAction{Action: &pb.FileAction_Copy{Copy: c}}, 0, 1, 0)
}

func wild(c *pb.FileActionCopy) { c.AllowWildcard, c.AllowEmptyWildcard = true, true }

func making(path string, owner *pb.ChownOpt) *pb.FileAction {
	mkdir := &pb.FileActionMkDir{Path: path, Mode: newMode, Owner: owner, Timestamp: -1}
	return onto(&pb.FileAction{Action: &pb.FileAction_Mkdir{Mkdir: mkdir}}, 0, nothing, 0)
}

func plainRemoval(path string) *pb.FileAction {
	action := removal(path)
	action.GetRm().AllowWildcard = false
	return action
}

// In each of these BuildKit would make something else of a rewriting that looks right.
func TestWhatLooksLikeAnotherSpellingStaysWhatBuildKitReads(t *testing.T) {
	trees := []*rules.Node{
		rules.Of(tree.Tree{{Dir: true, Mode: 0o755}, {Path: "a", Dir: true, Mode: 0o2755, GID: 6}, {Path: "a/b", Mode: 0o644}}),
		rules.Of(tree.Tree{{Dir: true, Mode: 0o755}, {Path: "a", Dir: true, Mode: 0o755}, {Path: "a/b", Mode: 0o644}}),
	}
	for name, action := range map[string]*pb.FileAction{
		"an escaped slash in a pattern":             removal(`/*\/b`),
		"a class that has a slash":                  removal(`/a[/]b`),
		"a backslash before a wildcard, of an rm":   removal(`/m\x/*`),
		"a backslash before a wildcard, of a copy":  copying(`/m\x/*`, "/n", wild),
		"an escaped slash after what is missing":    removal(`/m\/*`),
		"a file as what is in a directory":          copying("/a/b/.", "/n/", func(c *pb.FileActionCopy) { c.CreateDestPath = true }),
		"an owner that changes nothing":             making("/a/d", chown(unchanged, unchanged)),
		"a path to the root by a name that is none": plainRemoval("x\x01/.."),
		"a path above the root":                     plainRemoval("x\x01/../.."),
	} {
		given := op(action)
		f := newFileOp(given)
		f.treeless(context.Background())
		if !areSame(t, made(t, given.GetFile(), trees, rules.All), made(t, &pb.FileOp{Actions: f.new}, trees, rules.All), trees[1]) {
			t.Errorf("%s: %v", name, f.new)
		}
	}
}

// A result that two actions use is a layer by itself, also if no output needs one of them.
func TestAnActionThatIsNotNeededCountsForLayers(t *testing.T) {
	trees := []*rules.Node{rules.Empty(), rules.Of(tree.Tree{{Dir: true, Mode: 0o755}, {Path: "a", Mode: 0o644}})}
	first := making("/a", nil)
	first.Output = noOutput
	given := op(first, onto(plainRemoval("/a"), 2, nothing, 0), onto(making("/b", nil), 2, nothing, noOutput))
	f := newFileOp(given)
	f.treeless(context.Background())
	if !areSame(t, made(t, given.GetFile(), trees, rules.All), made(t, &pb.FileOp{Actions: f.new}, trees, rules.All), trees[1]) {
		t.Error(f.new)
	}
}

func TestADirectoryIsMadeBeforeACopyIntoIt(t *testing.T) {
	f := newFileOp(op(copying("/a", "/n/", nil)))
	f.treeless(context.Background())
	if len(f.new) != 2 || f.new[0].GetMkdir().GetPath() != "/n" || f.new[1].Input != 2 ||
		fmt.Sprint(f.Actions, f.Changes) != "[0 0] [action 0: an mkdir before it]" {
		t.Error(f.new, f.Row)
	}
}

func TestACopyOfAMissingNameFailsAlthoughAWildcardMayMatchNothing(t *testing.T) {
	f := newFileOp(op(copying("/missing", "/b", wild)))
	f.treeless(context.Background())
	if f.new[0].GetCopy().AllowEmptyWildcard || fmt.Sprint(f.Changes) != "[action 0: no allowEmptyWildcard]" {
		t.Error(f.new, f.Row)
	}
}

func TestWhatAgreesStaysAsItIs(t *testing.T) {
	given := op(copying("/a*", "/b", func(c *pb.FileActionCopy) { c.AllowWildcard, c.AllowEmptyWildcard, c.CreateDestPath = true, true, true }))
	f := newFileOp(given)
	f.treeless(context.Background())
	if len(f.Changes) > 0 || (&pb.FileOp{Actions: f.new}).String() != given.GetFile().String() {
		t.Error(f.new, f.Row)
	}
}

func TestAMergeListsEachInputOnce(t *testing.T) {
	given := &pb.Op{Inputs: []*pb.Input{{Digest: "a"}, {Digest: "b"}}}
	given.Op = &pb.Op_Merge{Merge: &pb.MergeOp{Inputs: []*pb.MergeInput{{Input: 1}, {Input: 0}, {Input: 1}}}}
	new, what := listed(given)
	if fmt.Sprint(new.GetMerge()) != "inputs:<> inputs:<input:1 > " || what != "lists each input once, in their order" {
		t.Error(new, what)
	}
}
