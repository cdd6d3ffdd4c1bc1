package persistent

import "iter"

// A Pair has the values of a name in two maps; a value is zero where the map has none.
type Pair[V Value] struct{ A, B V }

// Differing returns the names in order whose values have other sums, or that only one of two maps has. What the maps share
// costs nothing.
func Differing[V Value](a, b Map[V]) iter.Seq2[string, Pair[V]] {
	return func(yield func(string, Pair[V]) bool) {
		one, other := walkOf(a), walkOf(b)
		for {
			one.skip(other)
			x, y := one.top(), other.top()
			var pair Pair[V]
			name := ""
			switch {
			case x == nil && y == nil:
				return
			case y == nil || x != nil && x.name < y.name:
				name, pair.A = x.name, x.value
				one.drop()
			case x == nil || y.name < x.name:
				name, pair.B = y.name, y.value
				other.drop()
			default:
				name, pair = x.name, Pair[V]{x.value, y.value}
				one.drop()
				other.drop()
				if pair.A.Sum() == pair.B.Sum() {
					continue
				}
			}
			if !yield(name, pair) {
				return
			}
		}
	}
}

// A walk goes through a map in order. The last part comes next: a whole subtree, or a node alone.
type walk[V Value] struct{ parts []part[V] }

type part[V Value] struct {
	node  *node[V]
	alone bool
}

func walkOf[V Value](m Map[V]) *walk[V] {
	w := &walk[V]{}
	w.push(m.root)
	return w
}

func (w *walk[V]) push(n *node[V]) {
	if n != nil {
		w.parts = append(w.parts, part[V]{n, false})
	}
}

func (w *walk[V]) drop() { w.parts = w.parts[:len(w.parts)-1] }

// next returns the next part, which has no node at the end.
func (w *walk[V]) next() part[V] {
	if len(w.parts) == 0 {
		return part[V]{nil, true}
	}
	return w.parts[len(w.parts)-1]
}

// size is how many names the next part has if it can be opened.
func (p part[V]) size() int {
	if p.alone {
		return 0
	}
	return p.node.size
}

// open replaces the next part by its node alone, with what is before and after it.
func (w *walk[V]) open() {
	n := w.next().node
	w.drop()
	w.push(n.right)
	w.parts = append(w.parts, part[V]{n, true})
	w.push(n.left)
}

// top returns the next node, once all before it are opened.
func (w *walk[V]) top() *node[V] { return w.next().node }

// skip goes on in two walks up to the next nodes that may differ: what both have next is skipped.
func (w *walk[V]) skip(other *walk[V]) {
	for {
		one, two := w.next(), other.next()
		switch {
		case one.alone && two.alone:
			return
		case !one.alone && !two.alone && one.node.sum == two.node.sum:
			w.drop()
			other.drop()
		case one.size() >= two.size():
			w.open()
		default:
			other.open()
		}
	}
}
