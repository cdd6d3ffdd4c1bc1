package rules

import (
	"context"
	"path"
	"slices"
	"strings"
	"unicode/utf8"

	"github.com/moby/buildkit/solver/pb"
	"llbm/daemon/internal/paths"
	"llbm/daemon/internal/persistent"
)

// unescaped returns the name that a part without a wildcard matches in llbm; one that ends in a lone backslash fails.
func unescaped(part string) (string, error) {
	var name []byte
	for i := 0; i < len(part); i++ {
		if part[i] == '\\' {
			if i++; i == len(part) {
				return "", fails("a pattern ends in a backslash")
			}
		}
		name = append(name, part[i])
	}
	return string(name), nil
}

// patternOf returns the names before the first wildcard, and the other parts. Rule Escape: in these names a backslash is a
// backslash; in llbm it is None, but makes the character after it plain.
func patternOf(text string, like Rules) (names, parts []string, err error) {
	if !like.Has(Names) && !paths.IsPath(text) {
		return nil, nil, fails("a text is no pattern")
	}
	given := paths.Names(text)
	n := paths.Wild(given)
	for _, name := range given[:n] {
		if !like.Has(Escape) {
			if name, err = unescaped(name); err != nil {
				return nil, nil, err
			}
		}
		names = append(names, name)
	}
	return names, given[n:], checkNames(names)
}

// unitOf returns the first unit of a pattern: a class, an escaped character, or a character.
func unitOf(pattern string) string {
	if pattern == "" {
		return ""
	}
	if pattern[0] == '[' {
		for i := 1; i < len(pattern); i++ {
			switch pattern[i] {
			case '\\':
				i++
			case ']':
				return pattern[:i+1]
			}
		}
		return pattern
	}
	escape := 0
	if pattern[0] == '\\' {
		escape = 1
	}
	_, n := utf8.DecodeRuneInString(pattern[escape:])
	return pattern[:escape+n]
}

// matchesCharacters is whether a name matches a part of a pattern as in llbm: what a `*` matches never ends within a
// character.
func matchesCharacters(pattern, name string) bool {
	star, from, starred := "", "", false
	for pattern != "" || name != "" {
		if strings.HasPrefix(pattern, "*") {
			pattern = pattern[1:]
			star, from, starred = pattern, name, true
			continue
		}
		unit := unitOf(pattern)
		_, size := utf8.DecodeRuneInString(name)
		if ok, _ := path.Match(unit, name[:size]); ok && unit != "" && size > 0 {
			pattern, name = pattern[len(unit):], name[size:]
			continue
		}
		if !starred || from == "" {
			return false
		}
		_, size = utf8.DecodeRuneInString(from)
		from = from[size:]
		pattern, name = star, from
	}
	return true
}

// isMatch is whether the rest of a path matches. Rule Match: BuildKit matches the parts as one text of bytes, so a class can
// match a `/`.
func isMatch(parts, rest []string, like Rules) bool {
	if like.Has(Match) {
		ok, _ := path.Match(strings.Join(parts, "/"), strings.Join(rest, "/"))
		return ok
	}
	if len(parts) != len(rest) {
		return false
	}
	for i := range parts {
		if !matchesCharacters(parts[i], rest[i]) {
			return false
		}
	}
	return true
}

// A matcher looks for paths that match a pattern.
type matcher struct {
	ctx   context.Context
	parts []string
	like  Rules
	plain int // how many of the first parts match one name each
	found [][]string
	none  map[nodeAt]bool // nodes below which nothing matches, if all parts match one name each
}

// A nodeAt is a node below some names.
type nodeAt struct {
	sum   persistent.Sum
	names int
}

// matched returns the paths below a directory that match, in order. What is below a match is not looked at, nor what can't match. A
// client chooses the pattern, so the context ends this too.
func matched(ctx context.Context, n *Node, at, parts []string, like Rules) ([][]string, error) {
	m := &matcher{ctx: ctx, parts: parts, like: like, plain: len(parts), none: map[nodeAt]bool{}}
	if like.Has(Match) {
		if i := slices.IndexFunc(parts, isJoined); i >= 0 {
			m.plain = i
		}
	}
	err := m.below(n, at, nil)
	return m.found, err
}

// isJoined is whether a part of a pattern can match more than one name, or is joined to the next one: it has a class, or ends in
// a backslash.
func isJoined(part string) bool { return strings.Contains(part, "[") || strings.HasSuffix(part, `\`) }

// below looks below a node, with what of its path comes after the pattern's names.
func (m *matcher) below(n *Node, at, rest []string) error {
	isWhole := m.plain == len(m.parts)
	if n == nil || n.below.Len() == 0 || isWhole && len(rest) == len(m.parts) {
		return nil
	}
	key := nodeAt{n.sum, len(rest)}
	if isWhole && m.none[key] {
		return nil
	}
	count := len(m.found)
	for name, one := range n.below.All() {
		if err := m.ctx.Err(); err != nil {
			return err
		}
		if len(rest) < m.plain && !m.isPart(m.parts[len(rest)], name) {
			continue
		}
		path, after := below(at, name), below(rest, name)
		if isMatch(m.parts, after, m.like) {
			m.found = append(m.found, path)
		} else if err := m.below(one, path, after); err != nil {
			return err
		}
	}
	m.none[key] = m.none[key] || len(m.found) == count
	return nil
}

// isPart is whether a name matches a part.
func (m *matcher) isPart(part, name string) bool {
	if m.like.Has(Match) {
		ok, _ := path.Match(part, name)
		return ok
	}
	return matchesCharacters(part, name)
}

// foundBelow returns the paths that match a pattern with a wildcard. Rule WildcardBase: what is before the first wildcard must
// be there. Rule BadPattern: a text that is no pattern matches nothing, and does not fail.
func foundBelow(ctx context.Context, names, parts []string, t *Node, like Rules) ([][]string, error) {
	base := t.At(names)
	if like.Has(WildcardBase) && base == nil {
		return nil, fails("%s is missing", shown(names))
	}
	if paths.IsMalformed(parts) && !(like.Has(BadPattern) && like.Has(Match)) {
		if like.Has(BadPattern) {
			return nil, nil
		}
		return nil, fails("a text is no pattern")
	}
	return matched(ctx, base, names, parts, like)
}

// foundForRm returns the paths that an rm removes: with `allowWildcard` those that match, and without a wildcard its path.
func foundForRm(ctx context.Context, given *pb.FileActionRm, t *Node, like Rules) ([][]string, error) {
	if !given.AllowWildcard {
		one, err := read(given.Path, like)
		if err != nil {
			return nil, err
		}
		return plainForRm(one, t, like)
	}
	names, parts, err := patternOf(given.Path, like)
	if err != nil {
		return nil, err
	}
	if len(parts) == 0 {
		return plainForRm(names, t, like)
	}
	if names, err = followSource(names, false, t, like); err != nil {
		return nil, err
	}
	return foundBelow(ctx, names, parts, t, like)
}

// plainForRm returns the one path of an rm. Rule RmBelowFile: a path below a file is not skipped by `allowNotFound`.
func plainForRm(names []string, t *Node, like Rules) ([][]string, error) {
	to, err := followSource(names, false, t, like)
	if err != nil {
		return nil, err
	}
	if like.Has(RmBelowFile) && t.isBelowFile(to) {
		return nil, fails("%s is below a file", shown(names))
	}
	return [][]string{to}, nil
}

// foundForCopy returns the paths that a copy with `allowWildcard` copies. Rule PlainWildcard: without a wildcard in the text
// its path must be there, whatever `allowEmptyWildcard` says.
func foundForCopy(ctx context.Context, given *pb.FileActionCopy, t *Node, like Rules) ([][]string, error) {
	names, parts, err := patternOf(given.Src, like)
	if err != nil {
		return nil, err
	}
	at, err := followSource(names, given.FollowSymlink, t, like)
	if err != nil {
		return nil, err
	}
	var found [][]string
	if len(parts) > 0 {
		if found, err = foundBelow(ctx, at, parts, t, like); err != nil {
			return nil, err
		}
	} else if t.At(at) != nil {
		found = [][]string{names}
	}
	if len(found) == 0 && (!given.AllowEmptyWildcard || len(parts) == 0 && like.Has(PlainWildcard)) {
		return nil, fails("nothing is there")
	}
	return found, nil
}
