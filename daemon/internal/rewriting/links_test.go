package rewriting

import (
	"context"
	"errors"
	"math/rand"
	"strings"
	"testing"

	"github.com/moby/buildkit/solver/pb"
	"llbm/daemon/internal/cases"
	"llbm/daemon/internal/rules"
	"llbm/daemon/internal/tree"
)

// someTargets are those of the links of random trees.
var someTargets = []string{"a", "b", "/a", "/b/c", "..", "../a", "/", "a/b", "../../b/..", "/c/../a", "d", "missing", "/ab/missing", ".", "./b/"}

// targets has the targets of links by their contents, and withLinks reads trees with them.
var (
	targets   = map[string]string{}
	withLinks rules.Reader
)

func init() {
	var known []rules.Given
	for i, one := range someTargets {
		token := []byte{0xff, 0, 0, 0, byte(i)}
		targets[string(token)] = one
		known = append(known, rules.Given{Token: token, Target: []byte(one)})
	}
	withLinks.Known = rules.KnownOf(known)
}

// tokenOf returns the content of a link.
func tokenOf(target string) []byte {
	for token, one := range targets {
		if one == target {
			return []byte(token)
		}
	}
	return []byte("another link: " + target)
}

// randomLinks returns a small tree in which some files are links.
func randomLinks(random *rand.Rand) *rules.Node {
	entries := randomTree(random).Tree()
	for i := range entries {
		if !entries[i].Dir && random.Intn(2) == 0 {
			entries[i].Content, entries[i].Mode = tokenOf(pick(random, someTargets...)), 0o777
		}
	}
	return withLinks.Of(entries)
}

// randomPatterns returns patterns of a copy, or none.
func randomPatterns(random *rand.Rand) []string {
	if random.Intn(3) == 0 {
		return nil
	}
	var found []string
	for range 1 + random.Intn(3) {
		parts := []string{pick(random, "a", "b", "c", "*", "**", "a*", "?b", "ab", "[a-c]")}
		for random.Intn(2) == 0 {
			parts = append(parts, pick(random, "a", "b", "*", "**", "d"))
		}
		found = append(found, pick(random, "", "", "", "!")+strings.Join(parts, "/"))
	}
	return found
}

// A definition with links and patterns becomes one of which llbm, to which a link is a file, makes what BuildKit makes; what it is
// rewritten to follows no link, and has nothing that llbm does not take. What can't be rewritten stays as it is.
func TestByItsTreesAnOpWithLinksAndPatternsBecomesOneThatLLBMTakes(t *testing.T) {
	random := rand.New(rand.NewSource(11))
	left, rewritten := 0, 0
	for number := range cases.Of(800) {
		inputs := []*rules.Node{randomLinks(random), randomLinks(random)}
		action := randomAction(random, number%2 == 0, inputs[0], inputs[1])
		if c := action.GetCopy(); c != nil {
			c.FollowSymlink = flag(random)
			c.AttemptUnpackDockerCompatibility = random.Intn(4) == 0
			if random.Intn(3) == 0 {
				c.IncludePatterns, c.ExcludePatterns = randomPatterns(random), randomPatterns(random)
			}
		}
		given := op(action)
		if isHosts(given.GetFile(), inputs) {
			continue // what BuildKit makes is not known
		}
		want := made(t, given.GetFile(), inputs, rules.All)
		f, isDone := byTrees(t, given, inputs)
		new := &pb.FileOp{Actions: f}
		if rules.IsBeyond(new) || !isDone {
			left++ // llbm refuses it, or the build is refused by the link
			continue
		}
		here, again := made(t, new, inputs, rules.None), made(t, new, inputs, rules.All)
		if here == nil && want != nil {
			left++ // llbm fails, as at a name that it does not take
			continue
		}
		if !areSameEnds(here, want) || !areSameEnds(again, want) {
			t.Errorf("case %d: %v became %v, which makes something else", number, given.GetFile(), new)
		}
		rewritten++
	}
	if left > cases.Of(20) || rewritten < cases.Of(400) {
		t.Errorf("%d are left, %d are rewritten", left, rewritten)
	}
	t.Logf("%d are left, %d are rewritten", left, rewritten)
}

// What else is written is a warning; the name that is written ends as in BuildKit.
func TestAFileWithOtherNamesKeepsItsMode(t *testing.T) {
	text := strings.NewReader("d 0755 0 0 /\nf 4755 0 0 78 /a\nf 4755 0 0 78 /b\n")
	base, err := rules.Reader{Linked: []string{"/a", "/b"}}.Read(context.Background(), text)
	if err != nil {
		t.Fatal(err)
	}
	inputs := []*rules.Node{base, rules.Empty()}
	mkfile := &pb.FileActionMkFile{Path: "/a", Mode: 0o600, Data: []byte("y"), Timestamp: -1}
	f, isDone := byTrees(t, op(&pb.FileAction{SecondaryInput: -1, Action: &pb.FileAction_Mkfile{Mkfile: mkfile}}), inputs)
	here := made(t, &pb.FileOp{Actions: f}, inputs, rules.None)
	if !isDone || len(here) != 1 || here[0].Tree().At([]string{"a"}).Mode() != 0o4755 {
		t.Errorf("%v became %v", isDone, f)
	}
}

func isHosts(op *pb.FileOp, inputs []*rules.Node) bool {
	var refs []*rules.Ref
	for _, one := range inputs {
		refs = append(refs, rules.Based(one))
	}
	_, err := rules.FileOp(context.Background(), op, refs, rules.All)
	var fault *rules.ActionFails
	return errors.As(err, &fault) && errors.Is(fault.Err, rules.ErrHost)
}

// byTrees rewrites a file op by the trees of its inputs, and returns the actions that run, and whether it could.
func byTrees(t *testing.T, sent *pb.Op, inputs []*rules.Node) ([]*pb.FileAction, bool) {
	t.Helper()
	def := ofSources(t, sent)
	new, rows, err := Definition(context.Background(), def, given(inputs))
	if err != nil {
		t.Fatal(err)
	}
	made := &pb.Op{}
	if err := made.Unmarshal(new.Def[len(inputs)]); err != nil {
		t.Fatal(err)
	}
	_, isRewritten := rows[len(inputs)]
	by := func(like rules.Rules) []*rules.Ref { return makes(sent.GetFile(), inputs, like) }
	return made.GetFile().GetActions(), isRewritten || areSameEnds(by(rules.None), by(rules.All))
}

func makes(op *pb.FileOp, inputs []*rules.Node, like rules.Rules) []*rules.Ref {
	var refs []*rules.Ref
	for _, one := range inputs {
		refs = append(refs, rules.Based(one))
	}
	outputs, err := rules.FileOp(context.Background(), op, refs, like)
	if err != nil {
		return nil
	}
	return outputs
}

// areSameEnds is whether two ops end alike: both fail, or they have equal outputs.
func areSameEnds(a, b []*rules.Ref) bool { return len(a) == len(b) && areEqual(a, b) }

// ofSources returns a definition of an op on as many local sources as it has inputs.
func ofSources(t *testing.T, given *pb.Op) *pb.Definition {
	t.Helper()
	return definition(t, len(given.Inputs), func(inputs []*pb.Input) *pb.Op {
		one := *given
		one.Inputs = inputs
		return &one
	})
}

func passwd(text string) *rules.Node {
	return rules.Of(tree.Tree{
		{Dir: true, Mode: 0o755}, {Path: "etc", Dir: true, Mode: 0o755},
		{Path: "etc/group", Mode: 0o644, Content: []byte("root:x:0:\nstaff:x:50:app\n")}, {Path: "etc/passwd", Mode: 0o644, Content: []byte(text)},
	})
}

func byName(user, group string) *pb.ChownOpt {
	name := func(text string) *pb.UserOpt {
		if text == "" {
			return nil
		}
		return &pb.UserOpt{User: &pb.UserOpt_ByName{ByName: &pb.NamedUserOpt{Name: text, Input: 0}}}
	}
	return &pb.ChownOpt{User: name(user), Group: name(group)}
}

func TestAnOwnersNameIsLookedUpAsBuildKitDoes(t *testing.T) {
	inputs := []*rules.Node{passwd("root:x:0:0:root:/root:/bin/sh\napp:x:1000:2000::/app:\n"), rules.Empty()}
	for _, test := range []struct {
		user, group string
		want        [2]uint32
	}{
		{"app", "", [2]uint32{1000, 2000}}, {"app", "staff", [2]uint32{1000, 50}}, {"nobody", "", [2]uint32{}},
		{"app", "nogroup", [2]uint32{1000, 2000}}, {"", "staff", [2]uint32{0, 50}},
	} {
		actions, ok := byTrees(t, op(making("/home", byName(test.user, test.group))), inputs)
		if !ok {
			t.Fatalf("%v: not rewritten", test)
		}
		got := made(t, &pb.FileOp{Actions: actions}, inputs, rules.None)
		if user, group := got[0].Tree().At([]string{"home"}).Owner(); [2]uint32{user, group} != test.want {
			t.Errorf("%v: %d:%d", test, user, group)
		}
	}
}

func TestAnOwnersNameIsLookedUpAlsoWhereWhatIsCopiedIsNotKnown(t *testing.T) {
	action := copying("/app", "/app", func(c *pb.FileActionCopy) { c.Owner = byName("app", "") })
	second := copying("/bin", "/app/", func(c *pb.FileActionCopy) { c.Owner = byName("app", "") })
	second.GetCopy().Owner.User.GetByName().Input = 2
	action.Output, second.Input, second.Output = noOutput, 2, 0
	f := newFileOp(op(action, second))
	f.known = map[pb.InputIndex]*rules.Node{0: passwd("app:x:7:8::/:\n")}
	f.treeless(context.Background())
	if f.isBeyond {
		t.Fatal("it is left as it is")
	}
	for _, one := range f.new {
		if c := one.GetCopy(); c != nil && c.Owner.String() != chown(7, 8).String() {
			t.Error(c)
		}
	}
	action.GetCopy().Dest = "/etc"
	f = newFileOp(op(action, second))
	f.known = map[pb.InputIndex]*rules.Node{0: passwd("app:x:7:8::/:\n")}
	if f.treeless(context.Background()); !f.isBeyond {
		t.Error("a name is looked up in a file that may have been replaced")
	}
}
