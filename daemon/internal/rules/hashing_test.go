package rules

import (
	"context"
	"errors"
	"testing"

	"github.com/moby/buildkit/solver/pb"
	"llbm/daemon/internal/tree"
)

// withLinks returns a tree with directories, files and links: a text that begins with `-> ` is a link's target.
func withLinks(entries ...[2]string) *Node {
	made := tree.Tree{{Dir: true, Mode: newMode}}
	var known []Given
	for i, one := range entries {
		entry := tree.Entry{Path: one[0], Mode: newMode}
		switch text := one[1]; {
		case text == "/":
			entry.Dir = true
		case len(text) > 3 && text[:3] == "-> ":
			entry.Content = []byte{0xff, byte(i)}
			known = append(known, Given{Token: entry.Content, Target: []byte(text[3:])})
		default:
			entry.Content = []byte(text)
		}
		made = append(made, entry)
	}
	return Reader{Known: KnownOf(known)}.Of(made)
}

// What each of these does was seen by BuildKit's daemon.
func TestWhatACopySelectsIsHashedBeforeIt(t *testing.T) {
	from := withLinks(
		[2]string{"a", "/"}, [2]string{"a/f", "f"}, [2]string{"a/gone", "-> missing"}, [2]string{"a/to", "-> f"},
		[2]string{"b", "/"}, [2]string{"b/c", "/"}, [2]string{"b/c/up", "-> ../../a/f"}, [2]string{"b/c/f", "f"},
		[2]string{"d", "/"}, [2]string{"d/l", "-> ../e/../g"}, [2]string{"e", "-> b/c"}, [2]string{"g", "g"}, [2]string{"h", "-> a"},
		[2]string{"loop", "-> loop"},
	)
	one := func(src string, isFollowed, isWild bool, patterns ...string) *pb.FileActionCopy {
		return &pb.FileActionCopy{Src: src, Dest: "/", FollowSymlink: isFollowed, AllowWildcard: isWild, AllowEmptyWildcard: true, IncludePatterns: patterns}
	}
	for _, is := range []struct {
		what  string
		copy  *pb.FileActionCopy
		fails bool
	}{
		{"a link to nothing below what a wildcard selects", one("/a*", true, true), true},
		{"the same, not followed", one("/a*", false, true), false},
		{"the same without a wildcard", one("/a", true, false), false},
		{"the same without a wildcard in the text", one("/a", true, true), false},
		{"the link itself", one("/a/g*", true, true), true},
		{"others beside it", one("/a/t*", true, true), false},
		{"what patterns select beside it", one("/a", true, false, "f", "to"), false},
		{"what patterns select with it", one("/a", true, false, "g*"), true},
		{"what patterns select of what a wildcard selects", one("/[a]", true, true, "to"), false},
		{"links to what is there", one("/b/*", true, true), false},
		{"of a `..` the name before it is dropped", one("/d*", true, true), false},
		{"a link to itself", one("/lo*", true, true), true},
		{"what a link before a wildcard leads to", one("/h/t*", true, true), false},
		{"and its link to nothing", one("/h/g*", true, true), true},
		{"a pattern that is none, of nothing", one("/x*", false, true, "[a"), true},
		{"a wildcard that is none, with patterns", one("/[]", false, true, "a"), true},
		{"a wildcard that is none, where nothing is", one("/x/[]", false, true), false},
		{"a wildcard that is none, below a link", one("/h/[]", false, true), true},
	} {
		action := &pb.FileAction{Input: 0, SecondaryInput: 1, Action: &pb.FileAction_Copy{Copy: is.copy}}
		err := checkSelected(context.Background(), []*pb.FileAction{action}, []*Ref{Based(Empty()), Based(from)})
		if (err != nil) != is.fails {
			t.Errorf("%s: %v", is.what, err)
		}
		action.SecondaryInput = 0 // an input that an action works on is not hashed
		if err := checkSelected(context.Background(), []*pb.FileAction{action}, []*Ref{Based(from)}); err != nil {
			t.Errorf("%s: %v", is.what, err)
		}
	}
}

// An rm that does not allow that nothing is there looks for what a link leads to, as the kernel does.
func TestAnRmLooksForTheTargetOfALink(t *testing.T) {
	base := withLinks(
		[2]string{"a", "/"}, [2]string{"a/f", "f"}, [2]string{"a/to", "-> f"}, [2]string{"a/up", "-> ../a/../a/to"}, [2]string{"b", "-> missing"},
		[2]string{"c", "-> a/f/x"}, [2]string{"d", "-> a/f/"}, [2]string{"e", "-> /a/f"}, [2]string{"g", "-> ../f"}, [2]string{"h", "-> e"}, [2]string{"i", "-> i"},
	)
	for path, want := range map[string]string{
		"/a/to": "", "/a/up": "", "/b": "fails", "/c": "", "/d": "", "/e": "host", "/g": "host", "/h": "host", "/i": "", "/a/gone": "fails",
	} {
		_, err := rm(context.Background(), &pb.FileActionRm{Path: path}, base, All)
		got := ""
		if errors.Is(err, ErrHost) {
			got = "host"
		} else if err != nil {
			got = "fails"
		}
		if got != want {
			t.Errorf("%s: %q, not %q: %v", path, got, want, err)
		}
		if _, err := rm(context.Background(), &pb.FileActionRm{Path: path, AllowNotFound: true}, base, All); err != nil {
			t.Errorf("%s: %v", path, err)
		}
	}
}
