package persistent

import (
	"fmt"
	"maps"
	"math/rand"
	"slices"
	"testing"
)

// A word is a value of the tests.
type word string

func (w word) Sum() Sum       { return SumOf([]byte(w)) }
func (w word) Extent() Extent { return Extent{0, len(w), false} }

func plain(m Map[word]) map[string]word { return maps.Collect(m.All()) }

func last(_, b word) (word, error) { return b, nil }

// random returns a map made by some steps, with what it has.
func random(r *rand.Rand, names, steps int) (Map[word], map[string]word) {
	m, want := Map[word]{}, map[string]word{}
	for range steps {
		name := fmt.Sprint(r.Intn(names))
		if r.Intn(3) == 0 {
			m = m.Delete(name)
			delete(want, name)
		} else {
			value := word(fmt.Sprint(r.Intn(3)))
			m, want[name] = m.Put(name, value), value
		}
	}
	return m, want
}

func built(want map[string]word) Map[word] {
	var b Builder[word]
	for _, name := range slices.Sorted(maps.Keys(want)) {
		b.Add(name, want[name])
	}
	return b.Map()
}

func TestAMapHasWhatWasPutIntoIt(t *testing.T) {
	r := rand.New(rand.NewSource(1))
	for range 300 {
		m, want := random(r, 40, 100)
		if !maps.Equal(plain(m), want) || m.Len() != len(want) {
			t.Fatal(plain(m), want)
		}
		if one := built(want); one.Sum() != m.Sum() || one.Extent() != m.Extent() {
			t.Fatal("a map that was made otherwise differs", want)
		}
		names := []string{}
		for name := range m.All() {
			names = append(names, name)
			if m.Get(name) != want[name] {
				t.Fatal(name)
			}
		}
		if !slices.IsSorted(names) || m.Get("none") != "" {
			t.Fatal(names)
		}
	}
}

func TestTwoMapsAreJoined(t *testing.T) {
	r := rand.New(rand.NewSource(2))
	for range 300 {
		a, wantA := random(r, 40, 60)
		b, wantB := random(r, 40, 60)
		joined := Over(a, b)
		want := maps.Clone(wantA)
		maps.Copy(want, wantB)
		if !maps.Equal(plain(joined), want) || joined.Sum() != built(want).Sum() {
			t.Fatal(wantA, wantB, plain(joined))
		}
	}
	if _, err := Union(Map[word]{}.Put("a", "1"), Map[word]{}.Put("a", "2"), func(word, word) (word, error) { return "", fmt.Errorf("no") }); err == nil {
		t.Error("the error of a value is lost")
	}
}

func TestNamesDifferWhoseValuesDo(t *testing.T) {
	r := rand.New(rand.NewSource(3))
	for range 300 {
		a, wantA := random(r, 60, 80)
		b, wantB := a, maps.Clone(wantA)
		for range r.Intn(6) {
			name := fmt.Sprint(r.Intn(60))
			b, wantB[name] = b.Put(name, "9"), "9"
		}
		got := map[string]Pair[word]{}
		for name, pair := range Differing(a, b) {
			got[name] = pair
		}
		want := map[string]Pair[word]{}
		for name, value := range wantB {
			if wantA[name] != value {
				want[name] = Pair[word]{wantA[name], value}
			}
		}
		if !maps.Equal(got, want) {
			t.Fatal(got, want)
		}
	}
}

// What maps share is not made or looked at again.
func TestAChangeCostsLittle(t *testing.T) {
	const count = 1 << 14
	var b Builder[word]
	for i := range count {
		b.Add(fmt.Sprintf("%06d", i), "1")
	}
	start := Made()
	m := b.Map()
	if got := Made() - start; got > count {
		t.Errorf("%d nodes are made of %d names", got, count)
	}
	const changes = 1000
	start = Made()
	for i := range changes {
		m = m.Put(fmt.Sprintf("%06d", i*7), "2")
	}
	if got := Made() - start; got > changes*100 {
		t.Errorf("%d nodes are made for %d changes", got, changes)
	}
	start = Made()
	if one, err := Union(m, m, last); err != nil || one != m || Made() != start {
		t.Error("a map joined with itself is made anew")
	}
}
