package rules

import (
	"context"
	"fmt"
	"slices"
	"strings"

	"llbm/daemon/internal/persistent"
)

// A pair is what BuildKit and what llbm has at a path, each of them nil if nothing is there.
type pair struct{ there, here *Node }

func (p pair) agrees() bool { return p.there.Sum() == p.here.Sum() }

func (p pair) equals(other pair) bool {
	return p.there.Sum() == other.there.Sum() && p.here.Sum() == other.here.Sum()
}

func (p pair) child(name string) pair { return pair{p.there.Child(name), p.here.Child(name)} }

// aspects are the ways in which two nodes differ by themselves.
type aspects uint8

const (
	ofMode aspects = 1 << iota
	ofOwner
	ofContent
	ofKind = ofMode | ofOwner | ofContent
)

// aspects returns how the two differ by themselves.
func (p pair) aspects() (found aspects) {
	if p.there == nil || p.here == nil || p.there.dir != p.here.dir {
		if p.there != p.here {
			return ofKind
		}
		return 0
	}
	if p.there.mode != p.here.mode {
		found |= ofMode
	}
	if p.there.user != p.here.user || p.there.group != p.here.group {
		found |= ofOwner
	}
	if p.there.content.sum != p.here.content.sum {
		found |= ofContent
	}
	return found
}

// A difference is a path at which two trees differ.
type difference struct {
	path string // without a slash in front
	pair
}

func kindOf(n *Node) string {
	switch {
	case n == nil:
		return "missing"
	case n.dir:
		return "a directory"
	}
	return "a file"
}

// words returns the difference in words.
func (d difference) words() string {
	found := d.aspects()
	if found == ofKind && kindOf(d.there) != kindOf(d.here) {
		return fmt.Sprintf("/%s is %s (here %s)", d.path, kindOf(d.there), kindOf(d.here))
	}
	var parts []string
	if found&ofMode != 0 {
		parts = append(parts, fmt.Sprintf("mode %04o (here %04o)", d.there.mode, d.here.mode))
	}
	if found&ofOwner != 0 {
		parts = append(parts, fmt.Sprintf("owner %d:%d (here %d:%d)", d.there.user, d.there.group, d.here.user, d.here.group))
	}
	if found&ofContent != 0 {
		parts = append(parts, "another content")
	}
	return fmt.Sprintf("/%s has %s", d.path, strings.Join(parts, ", "))
}

// A search looks for what differs in two trees after a step, and not in the same way before it. The root itself, which no
// result shows, is not compared.
type search struct {
	ctx          context.Context
	most         int               // how many differences are looked for
	there, here  map[string]string // what the step put there as it was, by its path: where it was
	found        []difference
	more         bool            // whether there are more
	withoutFound map[string]bool // the pairs below which nothing is found
}

// differing returns the pairs that do not agree.
func differing(given []pair) []pair {
	return slices.DeleteFunc(slices.Clone(given), pair.agrees)
}

// below looks below a directory, of which the pairs before the step are given that differ.
func (s *search) below(path string, after pair, before []pair) error {
	for _, name := range s.names(after, before) {
		if err := s.ctx.Err(); err != nil {
			return err
		}
		if s.more {
			return nil
		}
		one := after.child(name)
		if one.agrees() {
			continue
		}
		var was []pair
		for _, pair := range before {
			was = append(was, pair.child(name))
		}
		if err := s.at(path+name, one, differing(was)); err != nil {
			return err
		}
	}
	return nil
}

// names returns the names that may have something new, in order: what a step did not change is as it was.
func (s *search) names(after pair, before []pair) []string {
	if len(before) == 0 {
		return Changed(after.there, after.here)
	}
	largest := slices.MaxFunc(before, func(a, b pair) int { return a.there.children().Len() - b.there.children().Len() })
	out := append(Changed(largest.there, after.there), Changed(largest.here, after.here)...)
	slices.Sort(out)
	return slices.Compact(out)
}

// Changed returns the names in order below two nodes, one of which may be missing, that do not have the same in both.
func Changed(a, b *Node) []string {
	var out []string
	for name := range persistent.Differing(a.children(), b.children()) {
		out = append(out, name)
	}
	return out
}

// at looks at and below a path.
func (s *search) at(path string, after pair, before []pair) error {
	isEntry := after.aspects() != 0
	for _, was := range before {
		if was.equals(after) {
			return nil
		}
		isEntry = isEntry && !sameEntries(was, after)
	}
	from, isGrafted := s.there["/"+path]
	if isGrafted = isGrafted && from == s.here["/"+path]; isGrafted && from != "/" {
		return nil
	}
	if isEntry {
		if len(s.found) == s.most {
			s.more = true
			return nil
		}
		s.found = append(s.found, difference{path, after})
	}
	key := keyOf(after, before)
	if isGrafted || s.withoutFound[key] { // of a root that was copied only the entry is new, as no result showed it
		return nil
	}
	count := len(s.found)
	if err := s.below(path+"/", after, before); err != nil {
		return err
	}
	if len(s.found) == count && !s.more {
		if s.withoutFound == nil {
			s.withoutFound = map[string]bool{}
		}
		s.withoutFound[key] = true
	}
	return nil
}

// sameEntries is whether two pairs have the same by themselves.
func sameEntries(a, b pair) bool {
	return pair{a.there, b.there}.aspects() == 0 && pair{a.here, b.here}.aspects() == 0
}

func keyOf(after pair, before []pair) string {
	var key []byte
	for _, one := range append([]pair{after}, before...) {
		there, here := one.there.Sum(), one.here.Sum()
		key = append(append(key, there[:]...), here[:]...)
	}
	return string(key)
}

// Differences returns how two trees differ, a line for each of up to some paths, in path order: what the first has, and what the
// second one has "here".
func Differences(ctx context.Context, there, here *Node, most int) ([]string, error) {
	s := &search{ctx: ctx, most: most}
	if err := s.below("", pair{there, here}, nil); err != nil {
		return nil, err
	}
	var out []string
	for _, one := range s.found {
		out = append(out, one.words())
	}
	return out, nil
}
