package rules

import (
	"context"
	"path"
	"slices"
	"strings"

	"github.com/moby/buildkit/solver/pb"
	"llbm/daemon/internal/links"
	"llbm/daemon/internal/paths"
)

// mostLinks is how many links BuildKit follows for a path that it hashes.
const mostLinks = 255

// A selection is what copies select in an input of the op that no action works on.
type selection struct {
	index  int
	follow bool
}

// A selected is a copy from such an input.
type selected struct {
	action int
	text   string
}

// hashedCopies returns the copies from inputs of the op that no action works on.
func hashedCopies(actions []*pb.FileAction, count int) []int {
	worked := map[int]bool{}
	for _, action := range actions {
		worked[int(action.Input)] = true
	}
	var found []int
	for number, action := range actions {
		index := int(action.SecondaryInput)
		if action.GetCopy() != nil && index >= 0 && index < count && !worked[index] {
			found = append(found, number)
		}
	}
	return found
}

// checkSelected fails by rule Selected: before a file op BuildKit hashes what its copies select in inputs that no action works
// on. So what is missing there fails, and a text that is no pattern, even for an action that is not done. Of what is selected by a
// wildcard or by patterns a link that leads nowhere fails, too, if links are followed.
func checkSelected(ctx context.Context, actions []*pb.FileAction, inputs []*Ref) error {
	var order []selection
	plain := map[selection][]selected{}
	for _, number := range hashedCopies(actions, len(inputs)) {
		c, index := actions[number].GetCopy(), int(actions[number].SecondaryInput)
		if hasPatterns(c) || isWild(c) {
			err := checkWild(ctx, c, inputs[index].tree)
			if ctx.Err() != nil {
				return ctx.Err()
			}
			if err != nil {
				return &ActionFails{number, err}
			}
			continue
		}
		key := selection{index, c.FollowSymlink}
		if plain[key] == nil {
			order = append(order, key)
		}
		plain[key] = append(plain[key], selected{number, c.Src})
	}
	for number, action := range actions {
		for _, one := range filesOfOwner(action) {
			key := selection{int(one.index), true}
			if key.index < 0 || key.index >= len(inputs) || isWorkedOn(actions, one.index) {
				continue
			}
			if plain[key] == nil {
				order = append(order, key)
			}
			plain[key] = append(plain[key], selected{number, shown(one.path)})
		}
	}
	for _, key := range order {
		if err := checkPlain(plain[key], key.follow, inputs[key.index].tree); err != nil {
			return err
		}
	}
	return nil
}

func isWorkedOn(actions []*pb.FileAction, index pb.InputIndex) bool {
	return slices.ContainsFunc(actions, func(one *pb.FileAction) bool { return one.Input == index })
}

// checkPlain fails if a path is missing, unless the text of another one begins its text.
func checkPlain(found []selected, isFollowed bool, t *Node) error {
	texts := map[string]bool{}
	for _, one := range found {
		texts[one.text] = true
	}
	for _, one := range found {
		if isBelowAny(one.text, texts) {
			continue
		}
		if err := checkHashed(paths.Names(one.text), isFollowed, t); err != nil {
			return &ActionFails{one.action, err}
		}
	}
	return nil
}

// isBelowAny is whether a text has another one, and a slash after it, at its begin.
func isBelowAny(text string, texts map[string]bool) bool {
	for i := range text {
		if text[i] == '/' && (texts[text[:i]] || i+1 < len(text) && texts[text[:i+1]]) {
			return true
		}
	}
	return false
}

// targetOf returns where a link at a path leads: of a `..` in its target the name before it is dropped, whatever that is.
func targetOf(at []string, link *Node) []string {
	target := string(link.content.given.Target)
	if !path.IsAbs(target) {
		target = path.Join(shown(at[:len(at)-1]), target)
	}
	return paths.Names(target)
}

// recordOf returns what is at a path, with links followed above it, and where this is; nil if nothing is there.
func recordOf(at []string, walked *int, t *Node) (*Node, []string, error) {
	if found := t.At(at); found != nil || len(at) == 0 {
		return found, at, nil
	}
	above, last := at[:len(at)-1], at[len(at)-1]
	parent, place, err := recordOf(above, walked, t)
	if err != nil {
		return nil, nil, err
	}
	if !parent.IsLink() {
		return parent.Child(last), below(place, last), nil
	}
	if *walked++; *walked > mostLinks {
		return nil, nil, links.ErrTooMany
	}
	return recordOf(below(targetOf(above, parent), last), walked, t)
}

// checkHashed fails if nothing is at a path, or, if links are followed, where one there leads.
func checkHashed(at []string, isFollowed bool, t *Node) error {
	for range mostLinks + 1 {
		walked := 0
		found, _, err := recordOf(at, &walked, t)
		switch {
		case err != nil:
			return err
		case found == nil:
			return fails("%s is missing", shown(at))
		case !found.IsLink() || !isFollowed:
			return nil
		}
		at = targetOf(at, found)
	}
	return links.ErrTooMany
}

// isWild is whether a copy selects by a wildcard.
func isWild(c *pb.FileActionCopy) bool {
	parts := paths.Names(c.Src)
	return c.AllowWildcard && paths.Wild(parts) < len(parts)
}

// A hashing goes through what a copy selects by a wildcard or by patterns.
type hashing struct {
	ctx    context.Context
	text   string  // what is matched, or "" if there is no wildcard
	filter *filter // or nil
	tree   *Node
}

// checkWild fails where BuildKit can't hash what a copy selects by a wildcard or by patterns.
func checkWild(ctx context.Context, c *pb.FileActionCopy, t *Node) (err error) {
	h := &hashing{ctx: ctx, tree: t}
	if h.filter, err = filterOf(c); err != nil {
		return err
	}
	names, walked := paths.Names(c.Src), 0
	base := names
	if isWild(c) {
		h.text, base = shown(names), names[:paths.Wild(names)]
	}
	start, place, err := recordOf(base, &walked, t)
	if err != nil {
		return err
	}
	if isWild(c) {
		if start, err = h.directory(start, place, walked); err != nil {
			return err
		}
		if start != nil && !paths.IsPattern(strings.Join(names, "/")) {
			return fails("a text is no pattern")
		}
	}
	if !c.FollowSymlink || !start.IsDir() {
		return nil
	}
	return h.check(start, hashed{at: base, isMatched: !isWild(c)})
}

// directory returns where a link before a wildcard leads; nil if nothing is there.
func (h *hashing) directory(start *Node, at []string, walked int) (*Node, error) {
	for place := at; start.IsLink(); start = h.tree.At(place) {
		if walked++; walked > mostLinks {
			return nil, links.ErrTooMany
		}
		place = targetOf(at, start)
	}
	return start, nil
}

// A hashed is where a node is that may be selected.
type hashed struct {
	at        []string // as the copy names it
	rest      []string // below what matches
	isMatched bool     // whether it matches, or is below what does
	above     matches
}

// check fails if a link that is selected at or below a node leads nowhere.
func (h *hashing) check(n *Node, one hashed) error {
	if !n.HasLinks() {
		return nil
	}
	if err := h.ctx.Err(); err != nil {
		return err
	}
	if !one.isMatched {
		one.isMatched, _ = path.Match(h.text, shown(one.at))
	}
	isTaken, here := one.isMatched, matches{}
	if isTaken && h.filter != nil {
		var err error
		if isTaken, here, err = h.filter.takes(one.rest, one.above); err != nil {
			return err
		}
	}
	if n.isLink() && isTaken {
		return checkHashed(one.at, true, h.tree)
	}
	for name, child := range n.below.All() {
		next := hashed{at: below(one.at, name), isMatched: one.isMatched, above: here}
		if one.isMatched {
			next.rest = below(one.rest, name)
		}
		if err := h.check(child, next); err != nil {
			return err
		}
	}
	return nil
}
