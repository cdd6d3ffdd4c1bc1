package rules

import "llbm/daemon/internal/persistent"

// A Ref is a tree with its layers: it is a change of another one, or of nothing, or a merge of others. BuildKit's merges lay layers.
type Ref struct {
	tree    *Node
	base    *Ref
	change  *change // of all its layers, once a merge has asked for it
	isKnown bool
	// replaced are the files in its layers that BuildKit takes for those before them.
	replaced []Replaced
}

// Tree returns the ref's tree.
func (r *Ref) Tree() *Node { return r.tree }

// Based returns a tree that is one layer.
func Based(t *Node) *Ref { return &Ref{tree: t} }

// On returns a tree that is a change of another one, or of nothing.
func On(base *Ref, t *Node) *Ref {
	one := &Ref{tree: t, base: base}
	if base != nil {
		one.replaced = base.replaced
	}
	return one
}

// layers returns the change that all layers of a ref make of a tree that they are laid over.
func (r *Ref) layers() *change {
	if r.isKnown {
		return r.change
	}
	l := newLayering()
	if r.base == nil {
		r.change = l.changeOf(nil, r.tree)
	} else {
		r.change = l.composed(r.base.layers(), l.changeOf(r.base.tree, r.tree))
	}
	r.base, r.isKnown = nil, true
	return r.change
}

// A change is what layers do at a path: they put a tree there, or remove what is there (puts, with a node or none), or they
// put a directory there, which keeps what is in one that is there already, except for changes below it. No change is nil.
type change struct {
	puts  bool
	node  *Node
	entry entry
	below persistent.Map[*change]
	sum   persistent.Sum
}

// Sum returns a digest of the change.
func (c *change) Sum() persistent.Sum {
	if c == nil {
		return persistent.Sum{}
	}
	return c.sum
}

// Extent is not needed of changes.
func (c *change) Extent() persistent.Extent { return persistent.Extent{} }

func putting(n *Node) *change {
	sum := n.Sum()
	return &change{puts: true, node: n, sum: persistent.SumOf(append([]byte{0}, sum[:]...))}
}

func inDirectory(one entry, below persistent.Map[*change]) *change {
	self, sum := newNode(one, persistent.Map[*Node]{}).sum, below.Sum()
	return &change{entry: one, below: below, sum: persistent.SumOf(append(append([]byte{1}, self[:]...), sum[:]...))}
}

// A layering remembers what it made of the same nodes and changes, since a tree may have one node many times.
type layering struct {
	changes  map[sums]*change
	composes map[sums]*change
	applies  map[sums]*Node
}

// sums are those of two nodes or changes.
type sums [2]persistent.Sum

func newLayering() *layering {
	return &layering{map[sums]*change{}, map[sums]*change{}, map[sums]*Node{}}
}

// changeOf returns the layer that makes one node of another one, or of none. A change below a directory brings its entry with
// it.
func (l *layering) changeOf(lower, upper *Node) *change {
	switch {
	case Equal(lower, upper):
		return nil
	case upper == nil || !upper.dir:
		return putting(upper)
	}
	key := sums{lower.Sum(), upper.Sum()}
	if known := l.changes[key]; known != nil {
		return known
	}
	var below persistent.Builder[*change]
	for name, pair := range persistent.Differing(lower.children(), upper.below) {
		below.Add(name, l.changeOf(pair.A, pair.B))
	}
	l.changes[key] = inDirectory(upper.entry, below.Map())
	return l.changes[key]
}

// composed returns a change that is made after another one.
func (l *layering) composed(first, second *change) *change {
	switch {
	case second == nil || first.Sum() == second.Sum():
		return first
	case first == nil || second.puts:
		return second
	}
	key := sums{first.Sum(), second.Sum()}
	if known := l.composes[key]; known != nil {
		return known
	}
	made := second
	if first.puts {
		made = putting(l.applied(second, first.node))
	} else {
		below, _ := persistent.Union(first.below, second.below, func(a, b *change) (*change, error) { return l.composed(a, b), nil })
		if below != second.below {
			made = inDirectory(second.entry, below)
		}
	}
	l.composes[key] = made
	return made
}

// applied returns what a change makes of a node, or of none.
func (l *layering) applied(c *change, old *Node) *Node {
	if c.puts {
		return c.node
	}
	key := sums{c.Sum(), old.Sum()}
	if known := l.applies[key]; known != nil {
		return known
	}
	l.applies[key] = newNode(c.entry, l.appliedBelow(c, old.children()))
	return l.applies[key]
}

func (l *layering) appliedBelow(c *change, old persistent.Map[*Node]) persistent.Map[*Node] {
	var put persistent.Builder[*Node]
	after := old
	for name, one := range c.below.All() {
		if made := l.applied(one, old.Get(name)); made != nil {
			put.Add(name, made)
		} else {
			after = after.Delete(name)
		}
	}
	return persistent.Over(after, put.Map())
}

// merged returns the merge of one or more trees: their layers, one over the other, below a root that stays as it is. One tree
// by itself stays as it is.
func merged(refs []*Ref) *Ref {
	if len(refs) == 1 {
		return refs[0]
	}
	l := newLayering()
	var all *change
	for _, one := range refs {
		all = l.composed(all, one.layers())
	}
	t := Empty()
	if all != nil {
		t = t.over(l.applied(all, t).below)
	}
	return &Ref{tree: t, change: all, isKnown: true}
}

// laid returns one tree laid over another, as llbm does it.
func laid(lower, upper *Node) *Node { return laidWith(lower, upper, map[sums]*Node{}) }

func laidWith(lower, upper *Node, known map[sums]*Node) *Node {
	if Equal(lower, upper) || !lower.IsDir() || !upper.dir {
		return upper
	}
	key := sums{lower.Sum(), upper.Sum()}
	if known[key] == nil {
		below, _ := persistent.Union(lower.below, upper.below, func(a, b *Node) (*Node, error) { return laidWith(a, b, known), nil })
		known[key] = upper.over(below)
	}
	return known[key]
}
