package rules

import (
	"context"
	"errors"
	"math/rand"
	"slices"
	"strings"
	"testing"

	"github.com/moby/buildkit/solver/pb"
	"llbm/daemon/internal/paths"
)

func TestAContextEndsAMatch(t *testing.T) {
	root, err := Read(context.Background(), strings.NewReader("d 0755 0 0 /\nf 0644 0 0 - /a\n"), nil)
	if err != nil {
		t.Fatal(err)
	}
	ctx, cancel := context.WithCancel(context.Background())
	cancel()
	if _, err := rm(ctx, &pb.FileActionRm{Path: "/*", AllowWildcard: true}, root, All); !errors.Is(err, context.Canceled) {
		t.Error(err)
	}
}

func TestALongPathIsReadInNoTimeByAnyRules(t *testing.T) {
	long := &pb.FileActionMkDir{Path: strings.Repeat("/a", 1<<20), MakeParents: true}
	for _, like := range []Rules{All, None, All &^ (1 << Length)} {
		if _, err := mkdir(long, Empty(), like); err == nil {
			t.Error("it is made")
		}
	}
}

func TestTreesShareWhatIsCopiedAsItIs(t *testing.T) {
	root, err := Read(context.Background(), strings.NewReader("d 0755 0 0 /\nd 0755 0 0 /a\nf 0644 0 0 - /a/b\n"), nil)
	if err != nil {
		t.Fatal(err)
	}
	left, err := copied(context.Background(), &pb.FileActionCopy{Src: "/a", Dest: "/c", Mode: keptMode}, Empty(), root, All)
	if err != nil || left.into.At([]string{"c"}) != root.At([]string{"a"}) {
		t.Error(left, err)
	}
}

// What can't match is not looked at, also where a tree has a directory very often.
func TestAPatternIsLookedForWhereItCanMatch(t *testing.T) {
	ctx := context.Background()
	n := Empty()
	for range 60 { // 2^60 paths
		made := Empty()
		for _, name := range []string{"a", "b"} {
			made = made.with([]string{name}, n)
		}
		n = made
	}
	for _, like := range []Rules{All, None} {
		for text, want := range map[string]int{"/a/*/c": 0, "/?/?/?": 8, "/*/*/*/*/*/*/*/*/*/*/*/*/*/*/*/*/*/*/*/*/*/*/*/*/*/*/*/*/*/*/*/*/*/*/*/*/*/*/*/*/c": 0} {
			parts := paths.Names(text)
			if found, err := matched(ctx, n, nil, parts, like); err != nil || len(found) != want {
				t.Errorf("%s: %d paths %v", text, len(found), err)
			}
		}
	}
	small := Empty().with([]string{"a"}, Empty()).with([]string{"a", "b"}, Empty())
	if found, err := matched(ctx, small, nil, []string{"a[^x]b"}, All); err != nil || len(found) != 1 {
		t.Error(found, err) // the class matches the slash
	}
	if found, err := matched(ctx, small, nil, []string{"a[^x]b"}, None); err != nil || len(found) != 0 {
		t.Error(found, err)
	}
}

// plainly returns the paths that match, of all that are there.
func plainly(n *Node, at, parts []string, like Rules) (found [][]string) {
	if !like.Has(Match) && len(at) == len(parts) {
		return nil
	}
	for name, one := range n.children().All() {
		path := below(at, name)
		if isMatch(parts, path, like) {
			found = append(found, path)
		} else {
			found = append(found, plainly(one, path, parts, like)...)
		}
	}
	return found
}

func TestAPatternMatchesWhatItMatchesAmongAllPaths(t *testing.T) {
	names := []string{"a", "b", "aé", "é", `x\`, "c-d"}
	units := []string{"a", "b", "*", "?", "[a-z]", "[^a]", "é", `\a`, "-", "["}
	r := rand.New(rand.NewSource(7))
	var grown func(depth int) *Node
	grown = func(depth int) *Node {
		n := Empty()
		for _, name := range names {
			if depth > 0 && r.Intn(3) > 0 {
				n = n.with([]string{name}, grown(depth-1))
			}
		}
		return n
	}
	some := 0
	for range 3000 {
		n, parts := grown(3), []string{}
		for range 1 + r.Intn(3) {
			part := ""
			for range 1 + r.Intn(3) {
				part += units[r.Intn(len(units))]
			}
			parts = append(parts, part)
		}
		for _, like := range []Rules{All, None} {
			want := plainly(n, nil, parts, like)
			found, err := matched(context.Background(), n, nil, parts, like)
			if some += len(want); err != nil || !slices.EqualFunc(found, want, slices.Equal[[]string]) {
				t.Fatalf("%q: %q, and not %q, %v", parts, found, want, err)
			}
		}
	}
	if some < 1000 {
		t.Errorf("only %d paths match", some)
	}
}
