package rewriting

import (
	"strings"

	"github.com/moby/buildkit/solver/pb"
	"llbm/daemon/internal/paths"
)

// A place is what BuildKit looks for in an input before it does a file op.
type place struct {
	input  pb.InputIndex
	follow bool
	text   string
}

// selections are the inputs of a file op that its actions use, and how.
type selections struct {
	copied, worked map[pb.InputIndex]bool
	plain          map[place]bool
}

func selectionsOf(actions []*pb.FileAction) *selections {
	s := &selections{copied: map[pb.InputIndex]bool{}, worked: map[pb.InputIndex]bool{}, plain: map[place]bool{}}
	for _, action := range actions {
		s.worked[action.Input] = true
		if c := action.GetCopy(); c != nil {
			s.copied[action.SecondaryInput] = true
			if isPlain(c) {
				s.plain[place{action.SecondaryInput, c.FollowSymlink, c.Src}] = true
			}
		}
	}
	return s
}

func isPlain(c *pb.FileActionCopy) bool {
	return (!c.AllowWildcard || !paths.HasWildcard(c.Src)) && !hasPatterns(c)
}

// guard returns an action that fails if BuildKit refuses the op for a copy that it does not do, since no output needs it; nil if it
// never does. It looks into inputs that no action works on: for plain texts, unless another one begins the text, and for
// texts that are no patterns.
func (s *selections) guard(action *pb.FileAction) *pb.FileAction {
	c := action.GetCopy()
	if c == nil || s.worked[action.SecondaryInput] || hasPatterns(c) {
		return nil
	}
	guard := cloned(action)
	made := guard.GetCopy()
	made.Dest, made.Owner, made.CreateDestPath, made.DirCopyContents, made.AllowEmptyWildcard = "/guard", nil, false, false, false
	made.AttemptUnpackDockerCompatibility = false
	if isPlain(c) {
		made.AllowWildcard = false
		if s.isCovered(place{action.SecondaryInput, c.FollowSymlink, c.Src}) {
			return nil
		}
		return guard
	}
	parts := paths.Names(c.Src)
	if paths.IsPattern(strings.Join(parts[paths.Wild(parts):], "/")) {
		return nil
	}
	return guard
}

// isCovered is whether the text of another copy from the same input begins a text.
func (s *selections) isCovered(one place) bool {
	for i := range len(one.text) {
		if one.text[i] != '/' {
			continue
		}
		for _, text := range []string{one.text[:i], one.text[:i+1]} {
			if text != one.text && s.plain[place{one.input, one.follow, text}] {
				return true
			}
		}
	}
	return false
}
