// Package persistent has maps from names to values that are never changed: a map with one name more shares all but a few nodes
// with the map before it. Two maps are equal if their sums are, and what two maps share is skipped when they are compared.
//
// A map is a treap: a search tree by name that is also a heap by a hash of the name, so its form depends on its names alone.
package persistent

import (
	"crypto/sha256"
	"encoding/binary"
	"hash/maphash"
	"iter"
	"sync/atomic"
)

// A Sum is a digest of a value: 128 bits of a SHA-256, so two values with one sum are equal.
type Sum [16]byte

// SumOf returns the sum of some bytes.
func SumOf(data []byte) Sum {
	full := sha256.Sum256(data)
	return Sum(full[:])
}

// An Extent is how many names the longest path below a value has, and how many bytes, with a slash for each name; and whether there is
// a link at it or below it.
type Extent struct {
	Names, Bytes int
	HasLinks     bool
}

func (e Extent) or(other Extent) Extent {
	return Extent{max(e.Names, other.Names), max(e.Bytes, other.Bytes), e.HasLinks || other.HasLinks}
}

// A Value is in a map.
type Value interface {
	comparable
	Sum() Sum
	Extent() Extent
}

// A Map has values by name. The zero map is empty.
type Map[V Value] struct{ root *node[V] }

type node[V Value] struct {
	name        string
	value       V
	priority    uint64
	left, right *node[V]
	size        int
	extent      Extent
	sum         Sum
}

// seed is chosen anew by each process, so that nobody can choose names that make a deep tree.
var seed = maphash.MakeSeed()

// made counts nodes.
var made atomic.Int64

// Made returns how many nodes were made in this process. Tests count work by it.
func Made() int64 { return made.Load() }

func priorityOf(name string) uint64 { return maphash.String(seed, name) }

// isBelow is whether a node is farther from the root than a name.
func (n *node[V]) isBelow(priority uint64, name string) bool {
	return priority > n.priority || priority == n.priority && name > n.name
}

func sumOf[V Value](n *node[V]) Sum {
	if n == nil {
		return Sum{}
	}
	return n.sum
}

func sizeOf[V Value](n *node[V]) int {
	if n == nil {
		return 0
	}
	return n.size
}

func extentOf[V Value](n *node[V]) Extent {
	if n == nil {
		return Extent{}
	}
	return n.extent
}

// join makes a node of a name and of what is before and after it.
func join[V Value](name string, value V, priority uint64, left, right *node[V]) *node[V] {
	made.Add(1)
	n := &node[V]{name: name, value: value, priority: priority, left: left, right: right, size: 1 + sizeOf(left) + sizeOf(right)}
	below := value.Extent()
	n.extent = Extent{1 + below.Names, 1 + len(name) + below.Bytes, below.HasLinks}.or(extentOf(left)).or(extentOf(right))
	var space [320]byte
	data := binary.AppendUvarint(space[:0], uint64(len(name)))
	data = append(data, name...)
	for _, sum := range []Sum{value.Sum(), sumOf(left), sumOf(right)} {
		data = append(data, sum[:]...)
	}
	n.sum = SumOf(data)
	return n
}

// with returns a node with other nodes below it, which is the same one if they are.
func (n *node[V]) with(value V, left, right *node[V]) *node[V] {
	if value == n.value && left == n.left && right == n.right {
		return n
	}
	return join(n.name, value, n.priority, left, right)
}

// Sum returns the map's sum.
func (m Map[V]) Sum() Sum { return sumOf(m.root) }

// Len returns how many names the map has.
func (m Map[V]) Len() int { return sizeOf(m.root) }

// Extent returns the longest path in the map.
func (m Map[V]) Extent() Extent { return extentOf(m.root) }

// Get returns the value of a name, or the zero value.
func (m Map[V]) Get(name string) (value V) {
	for n := m.root; n != nil; {
		switch {
		case name == n.name:
			return n.value
		case name < n.name:
			n = n.left
		default:
			n = n.right
		}
	}
	return value
}

// Put returns the map with a value.
func (m Map[V]) Put(name string, value V) Map[V] {
	return Map[V]{put(m.root, name, value, priorityOf(name))}
}

func put[V Value](n *node[V], name string, value V, priority uint64) *node[V] {
	switch {
	case n == nil:
		return join(name, value, priority, nil, nil)
	case name == n.name:
		return n.with(value, n.left, n.right)
	case n.isBelow(priority, name):
		left, _, right := split(n, name)
		return join(name, value, priority, left, right)
	case name < n.name:
		return n.with(n.value, put(n.left, name, value, priority), n.right)
	}
	return n.with(n.value, n.left, put(n.right, name, value, priority))
}

// split returns what is before a name, its node, and what is after it.
func split[V Value](n *node[V], name string) (left, at, right *node[V]) {
	switch {
	case n == nil:
		return nil, nil, nil
	case name == n.name:
		return n.left, n, n.right
	case name < n.name:
		left, at, right = split(n.left, name)
		return left, at, n.with(n.value, right, n.right)
	}
	left, at, right = split(n.right, name)
	return n.with(n.value, n.left, left), at, right
}

// Delete returns the map without a name.
func (m Map[V]) Delete(name string) Map[V] { return Map[V]{without(m.root, name)} }

func without[V Value](n *node[V], name string) *node[V] {
	switch {
	case n == nil:
		return nil
	case name == n.name:
		return both(n.left, n.right)
	case name < n.name:
		return n.with(n.value, without(n.left, name), n.right)
	}
	return n.with(n.value, n.left, without(n.right, name))
}

// both joins what is before a name with what is after it.
func both[V Value](left, right *node[V]) *node[V] {
	switch {
	case left == nil:
		return right
	case right == nil:
		return left
	case left.isBelow(right.priority, right.name):
		return right.with(right.value, both(left, right.left), right.right)
	}
	return left.with(left.value, left.left, both(left.right, right))
}

// All returns the names with their values, in order.
func (m Map[V]) All() iter.Seq2[string, V] {
	return func(yield func(string, V) bool) { each(m.root, yield) }
}

func each[V Value](n *node[V], yield func(string, V) bool) bool {
	return n == nil || each(n.left, yield) && yield(n.name, n.value) && each(n.right, yield)
}

// Over returns a map with the names of two, and the values of the second one where it has a name.
func Over[V Value](a, b Map[V]) Map[V] {
	root, _ := union(a.root, b.root, func(_, value V) (V, error) { return value, nil })
	return Map[V]{root}
}

// Union returns a map with the names of two. A function joins the values of a name that both have; of a value and itself it
// makes the same one.
func Union[V Value](a, b Map[V], join func(V, V) (V, error)) (Map[V], error) {
	root, err := union(a.root, b.root, join)
	return Map[V]{root}, err
}

func union[V Value](a, b *node[V], joined func(V, V) (V, error)) (*node[V], error) {
	if a == nil || sumOf(a) == sumOf(b) {
		return b, nil
	}
	if b == nil {
		return a, nil
	}
	top := a
	if a.isBelow(b.priority, b.name) {
		top = b
	}
	leftA, inA, rightA := split(a, top.name)
	leftB, inB, rightB := split(b, top.name)
	value := top.value
	if inA != nil && inB != nil {
		var err error
		if value, err = joined(inA.value, inB.value); err != nil {
			return nil, err
		}
	}
	left, err := union(leftA, leftB, joined)
	if err != nil {
		return nil, err
	}
	right, err := union(rightA, rightB, joined)
	if err != nil {
		return nil, err
	}
	if inB != nil && inB.value == value && inB.left == left && inB.right == right {
		return inB, nil
	}
	return top.with(value, left, right), nil
}

// A Builder makes a map of names that come in order.
type Builder[V Value] struct{ open []*node[V] }

// Add adds a name that comes after all before it.
func (b *Builder[V]) Add(name string, value V) {
	n := &node[V]{name: name, value: value, priority: priorityOf(name)}
	for last := len(b.open) - 1; last >= 0 && b.open[last].isBelow(n.priority, name); last-- {
		n.left, b.open = b.close(n.left), b.open[:last]
	}
	b.open = append(b.open, n)
}

// close returns the last open node, with what is after it.
func (b *Builder[V]) close(right *node[V]) *node[V] {
	last := b.open[len(b.open)-1]
	return join(last.name, last.value, last.priority, last.left, right)
}

// Map returns the map.
func (b *Builder[V]) Map() Map[V] {
	var right *node[V]
	for ; len(b.open) > 0; b.open = b.open[:len(b.open)-1] {
		right = b.close(right)
	}
	return Map[V]{right}
}
