package rewriting

import (
	"context"
	"math/rand"
	"slices"
	"strings"
	"testing"

	"github.com/moby/buildkit/solver/pb"
	digest "github.com/opencontainers/go-digest"
	"llbm/daemon/internal/cases"
	"llbm/daemon/internal/rules"
	"llbm/daemon/internal/tree"
)

func pick[T any](random *rand.Rand, all ...T) T { return all[random.Intn(len(all))] }

func flag(random *rand.Rand) bool { return random.Intn(2) == 0 }

var names = []string{"a", "b", "c", "d", "ab", `m\x`, "mx", "a b", `\`, "é"}

// oddName is a name that BuildKit takes and llbm does not.
const oddName = "a\x01"

// randomTree returns a small tree with files, directories, some with the set-group bit, and owners.
func randomTree(random *rand.Rand) *rules.Node {
	entries := tree.Tree{{Dir: true, Mode: pick(random, uint32(0o755), 0o755, 0o700, 0o2755)}}
	var fill func(path string, depth int)
	fill = func(path string, depth int) {
		for _, name := range slices.Sorted(slices.Values(names)) {
			if random.Intn(6) > 1 {
				continue
			}
			one := tree.Entry{Path: strings.TrimPrefix(path+"/"+name, "/"), Dir: depth < 3 && flag(random)}
			one.Mode = pick(random, uint32(0o644), 0o755, 0o700, 0o4755, 0o6711)
			if one.UID, one.GID = pick(random, uint32(0), 0, 5), pick(random, uint32(0), 0, 6); one.Dir {
				one.Mode = pick(random, uint32(0o755), 0o755, 0o700, 0o2755, 0o1777)
			} else {
				one.Content = []byte(pick(random, "", "x", "y", strings.Repeat("z", 40)))
			}
			entries = append(entries, one)
			if one.Dir {
				fill(path+"/"+name, depth+1)
			}
		}
	}
	fill("", 0)
	return rules.Of(entries)
}

// A texts makes texts of paths and patterns.
type texts struct {
	random *rand.Rand
	plain  bool        // without backslashes
	near   *rules.Node // a tree from which many paths are
}

func (t texts) part(wild bool) string {
	odd := []string{".", "..", "", `m\x`, `\a`, `\*`, `a\`, `x\`, `*\`, `[\`, oddName, `\`, `a\b`}
	wilds := []string{"*", "?", "a*", "[a-b]", "[^a]", "[", "[b-a]", `[\/]`, `*\`, `[^x]b`, "[/]", `*b`, `?\`, "[a", "b]", "*?", "*[a-z]"}
	for {
		one := pick(t.random, names...)
		switch {
		case wild && t.random.Intn(3) == 0:
			one = pick(t.random, wilds...)
		case t.random.Intn(6) == 0:
			one = pick(t.random, odd...)
		}
		if !t.plain || !strings.Contains(one, `\`) {
			return one
		}
	}
}

func (t texts) text(wild bool) string {
	var parts []string
	for n := t.near; flag(t.random) && len(n.Names()) > 0; n = n.Child(parts[len(parts)-1]) {
		parts = append(parts, pick(t.random, n.Names()...))
	}
	for n := t.random.Intn(3); n > 0 || len(parts) == 0; n-- {
		parts = append(parts, t.part(wild))
	}
	text := pick(t.random, "/", "/", "/", "") + strings.Join(parts, "/") + pick(t.random, "", "", "", "/", "/.", "/..")
	if t.plain {
		text = strings.ReplaceAll(text, `\`, "a")
	}
	return text
}

func randomOwner(random *rand.Rand) *pb.ChownOpt {
	if flag(random) {
		return nil
	}
	one := func() *pb.UserOpt {
		switch random.Intn(6) {
		case 0, 1:
			return nil
		case 2:
			return &pb.UserOpt{}
		}
		return &pb.UserOpt{User: &pb.UserOpt_ByID{ByID: pick(random, uint32(0), 7, 8, unchanged)}}
	}
	return &pb.ChownOpt{User: one(), Group: one()}
}

// randomAction returns an action of any kind, with any flags, for trees that are like these two.
func randomAction(random *rand.Rand, plain bool, base, second *rules.Node) *pb.FileAction {
	t := texts{random, plain, base}
	mode := pick(random, int32(0o755), 0o644, 0o4755, 0o1777, -1, 0)
	a := &pb.FileAction{Input: 0, SecondaryInput: nothing, Output: 0}
	switch random.Intn(6) {
	case 0:
		mkfile := &pb.FileActionMkFile{Path: t.text(false), Mode: mode, Owner: randomOwner(random), Data: []byte("new")}
		a.Action = &pb.FileAction_Mkfile{Mkfile: mkfile}
	case 1:
		mkdir := &pb.FileActionMkDir{Path: t.text(false), Mode: mode, MakeParents: flag(random), Owner: randomOwner(random)}
		a.Action = &pb.FileAction_Mkdir{Mkdir: mkdir}
	case 2:
		wild := random.Intn(4) > 0
		a.Action = &pb.FileAction_Rm{Rm: &pb.FileActionRm{Path: t.text(wild), AllowNotFound: flag(random), AllowWildcard: wild}}
	default:
		wild := random.Intn(3) > 0
		a.SecondaryInput = 1
		a.Action = &pb.FileAction_Copy{Copy: &pb.FileActionCopy{
			Src: texts{random, plain, second}.text(wild), Dest: t.text(false), Mode: pick(random, keptMode, keptMode, mode),
			Owner: randomOwner(random), DirCopyContents: flag(random),
			CreateDestPath: flag(random), AllowWildcard: wild, AllowEmptyWildcard: flag(random), Timestamp: pick(random, int64(-1), 0),
		}}
	}
	return a
}

// op returns a file op with two inputs.
func op(actions ...*pb.FileAction) *pb.Op {
	inputs := []*pb.Input{{Digest: digest.FromString("a")}, {Digest: digest.FromString("b")}}
	return &pb.Op{Op: &pb.Op_File{File: &pb.FileOp{Actions: actions}}, Inputs: inputs}
}

// made returns the outputs of a file op, none if it fails.
func made(t *testing.T, op *pb.FileOp, inputs []*rules.Node, like rules.Rules) []*rules.Ref {
	t.Helper()
	var refs []*rules.Ref
	for _, one := range inputs {
		refs = append(refs, rules.Based(one))
	}
	outputs, err := rules.FileOp(context.Background(), op, refs, like)
	if err != nil {
		return nil
	}
	return outputs
}

// areSame is whether outputs are equal, also as what merges lay over a tree.
func areSame(t *testing.T, a, b []*rules.Ref, under *rules.Node) bool {
	t.Helper()
	if len(a) != len(b) {
		return false
	}
	lay := &pb.MergeOp{Inputs: []*pb.MergeInput{{Input: 0}, {Input: 1}}}
	for i := range a {
		one, err := rules.Merge(context.Background(), lay, []*rules.Ref{rules.Based(under), a[i]}, rules.All)
		other, otherErr := rules.Merge(context.Background(), lay, []*rules.Ref{rules.Based(under), b[i]}, rules.All)
		if err != nil || otherErr != nil {
			t.Fatal(err, otherErr)
		}
		if !rules.Equal(a[i].Tree(), b[i].Tree()) || !rules.Equal(one.Tree(), other.Tree()) {
			return false
		}
	}
	return true
}

func TestWithoutTreesNoRewritingChangesWhatBuildKitMakes(t *testing.T) {
	random := rand.New(rand.NewSource(1))
	rewritten, wrong, equalBefore, equalAfter := 0, 0, 0, 0
	for number := range cases.Of(8_000) {
		inputs := []*rules.Node{randomTree(random), randomTree(random)}
		action := randomAction(random, number%2 == 0, inputs[0], inputs[1])
		given := op(action)
		f := newFileOp(given)
		if number%3 == 0 { // what a copy copies can be known, although what it copies to is not
			f.known = map[pb.InputIndex]*rules.Node{1: inputs[1]}
		}
		f.treeless(context.Background())
		new := &pb.FileOp{Actions: f.new}
		before := made(t, given.GetFile(), inputs, rules.All)
		if areSame(t, made(t, given.GetFile(), inputs, rules.None), before, inputs[1]) {
			equalBefore++
		}
		if areSame(t, made(t, new, inputs, rules.None), before, inputs[1]) {
			equalAfter++
		}
		if len(f.Changes) == 0 {
			continue
		}
		rewritten++
		if after := made(t, new, inputs, rules.All); !areSame(t, before, after, inputs[1]) {
			if wrong++; wrong < 10 {
				t.Errorf("case %d: %v became %v (%v): %v %v", number, given.GetFile(), new, f.Changes, before, after)
			}
		}
	}
	t.Logf("%d rewritten, %d wrong, %d equal before and %d after", rewritten, wrong, equalBefore, equalAfter)
}

// randomActions returns the actions of a file op with some inputs. Some are not needed, and some have a second input that does not
// exist or is done later.
func randomActions(random *rand.Rand, count int, plain bool, trees []*rules.Node) []*pb.FileAction {
	index := func(most int) pb.InputIndex { return pb.InputIndex(random.Intn(most+1) - 1) }
	var found []*pb.FileAction
	actions := 1 + random.Intn(4)
	for n := range actions {
		a := randomAction(random, plain, pick(random, trees...), pick(random, trees...))
		if a.Input, a.Output = pb.InputIndex(count+n-1), noOutput; random.Intn(3) == 0 {
			a.Input = index(count + n)
		}
		switch {
		case a.GetCopy() != nil:
			a.SecondaryInput = index(count + n)
		case random.Intn(12) == 0:
			a.SecondaryInput = index(count + actions)
		}
		if n == actions-1 {
			a.Output = 0
		}
		found = append(found, a)
	}
	return found
}

func TestWithoutTreesNoRewrittenOpChangesWhatBuildKitMakes(t *testing.T) {
	random := rand.New(rand.NewSource(5))
	rewritten, wrong, fail := 0, 0, 0
	for number := range cases.Of(4_000) {
		inputs := []*rules.Node{randomTree(random), randomTree(random)}
		var given *pb.Op
		var before []*rules.Ref
		for try := random.Intn(12); try >= 0 && before == nil; try-- { // most fail
			given = op(randomActions(random, len(inputs), number%2 == 0, inputs)...)
			before = made(t, given.GetFile(), inputs, rules.All)
		}
		f := newFileOp(given)
		f.treeless(context.Background())
		if before == nil {
			fail++
		}
		if len(f.Changes) == 0 {
			continue
		}
		rewritten++
		if !areSame(t, before, made(t, &pb.FileOp{Actions: f.new}, inputs, rules.All), inputs[1]) {
			if wrong++; wrong < 10 {
				t.Errorf("case %d: %v became %v (%v)", number, given.GetFile(), f.new, f.Changes)
			}
		}
	}
	t.Logf("%d rewritten, %d wrong, %d fail", rewritten, wrong, fail)
}
