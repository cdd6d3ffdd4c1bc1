package rules

import (
	"strings"

	"github.com/moby/buildkit/solver/pb"
	"github.com/moby/patternmatcher"
	"llbm/daemon/internal/persistent"
)

// A filter has the patterns of a copy, by which some of what is in a directory is copied; nil if it has none.
type filter struct {
	include, exclude *patternmatcher.PatternMatcher
}

// matches are what the patterns matched of the directories above.
type matches struct{ include, exclude patternmatcher.MatchInfo }

func matcherOf(patterns []string) (*patternmatcher.PatternMatcher, error) {
	if len(patterns) == 0 {
		return nil, nil
	}
	return patternmatcher.New(patterns)
}

func filterOf(c *pb.FileActionCopy) (*filter, error) {
	if !hasPatterns(c) {
		return nil, nil
	}
	include, err := matcherOf(c.IncludePatterns)
	if err != nil {
		return nil, fails("invalid includepatterns: %v", err)
	}
	exclude, err := matcherOf(c.ExcludePatterns)
	if err != nil {
		return nil, fails("invalid excludepatterns: %v", err)
	}
	return &filter{include, exclude}, nil
}

// takes is whether a path below what is copied is copied, and what the patterns match of it.
func (f *filter) takes(path []string, above matches) (taken bool, here matches, err error) {
	taken, text := true, strings.Join(path, "/")
	if f.include != nil {
		if taken, here.include, err = f.include.MatchesUsingParentResults(text, above.include); err != nil {
			return false, here, fails("failed to match includepatterns: %v", err)
		}
	}
	if f.exclude != nil {
		isExcluded, info, err := f.exclude.MatchesUsingParentResults(text, above.exclude)
		if err != nil {
			return false, here, fails("failed to match excludepatterns: %v", err)
		}
		taken, here.exclude = taken && !isExcluded, info
	}
	return taken, here, nil
}

// A filtering is a node that is copied over what is there, as far as patterns take it.
type filtering struct {
	path, source []string // where it is copied to, and from where
	rest         []string // where it is below what is copied
	old, from    *Node
	in           entry // the directory that it is copied into
	above        matches
	isSource     bool
}

// filtered returns what is at a path once a node was copied, and whether anything was: a directory that the patterns do not take is
// copied for what they take below it.
func (c *copier) filtered(f filtering) (*Node, bool, error) {
	if err := c.ctx.Err(); err != nil {
		return nil, false, err
	}
	isTaken, here := true, matches{}
	if !f.isSource {
		var err error
		if isTaken, here, err = c.filter.takes(f.rest, f.above); err != nil {
			return nil, false, err
		}
	}
	if !f.from.dir {
		if !isTaken {
			return f.old, false, nil
		}
		one, err := c.lay(f.path, f.source, f.old, f.from, f.in, false)
		return one, true, err
	}
	if f.old != nil && !f.old.dir && !f.old.isLink() && f.from.below.Len() > 0 {
		return nil, false, fails("%s is a file", shown(f.path)) // BuildKit looks below it also for what is not taken
	}
	one := c.directoryOf(f, isTaken)
	during := one // one that the patterns do not take is made whole before what is below it
	if isTaken {
		during = c.during(f.old, f.from.entry, f.in, f.isSource)
	}
	below, any, err := c.filteredBelow(f, during, here)
	any = any || isTaken
	switch {
	case err != nil:
		return nil, false, err
	case !any:
		return f.old, false, nil
	case f.old != nil && !f.old.dir:
		return nil, false, fails("%s is a file", shown(f.path))
	}
	return newNode(one, below), true, nil
}

// directoryOf returns the entry of a directory that is copied. One that is there gets no owner if patterns do not take it, but its mode.
func (c *copier) directoryOf(f filtering, isTaken bool) entry {
	switch {
	case !f.old.IsDir():
		return c.entryOf(f.from.entry, creator(f.in, c.like))
	case f.isSource || !c.like.Has(NestedDirectory):
		return f.old.entry
	case isTaken:
		return c.entryOf(f.from.entry, [2]uint32{f.old.user, f.old.group})
	}
	one := f.old.entry
	one.mode = f.from.mode
	return one
}

func (c *copier) filteredBelow(f filtering, in entry, here matches) (persistent.Map[*Node], bool, error) {
	var made persistent.Builder[*Node]
	old, any := f.old.children(), false
	for name, one := range f.from.below.All() {
		next := filtering{below(f.path, name), below(f.source, name), below(f.rest, name), old.Get(name), one, in, here, false}
		laid, did, err := c.filtered(next)
		if err != nil {
			return old, false, err
		}
		if did {
			made.Add(name, laid)
		}
		any = any || did
	}
	return persistent.Over(old, made.Map()), any, nil
}
