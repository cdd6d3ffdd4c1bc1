package notes

import (
	"cmp"
	"context"
	"errors"
	"fmt"
	"slices"

	"github.com/moby/buildkit/solver/pb"
	digest "github.com/opencontainers/go-digest"
	"llbm/daemon/internal/graph"
	"llbm/daemon/internal/records"
	"llbm/daemon/internal/rules"
)

// The kinds of notes of a definition: a field without an effect, what BuildKit's daemon dies of, and a rule that can matter.
const (
	KindField  = "field"
	KindBreaks = "breaks"
	KindRule   = "rule"
)

// A RowNote is a note of a row. Its part is the action, the mount or the input that it is about, or the key of an attribute.
type RowNote struct {
	Row  int    `json:"row"`
	Name string `json:"name"`
	Part string `json:"part,omitempty"`
	Kind string `json:"kind"`
}

const (
	entriesOfDefinition  = 1
	metadataOfDefinition = 2
)

// rows are the entries of a definition. An entry that is no op, or is equal to one before it, has none.
type rows struct {
	entries  [][]byte
	ops      []*pb.Op
	first    map[digest.Digest]int
	metadata map[string][]byte
	terminal int
}

// read reads a definition, whatever its entries are.
func read(data []byte) (*rows, error) {
	message := records.Of(data)
	if len(message) == 0 && len(data) > 0 {
		return nil, errors.New("this is no definition")
	}
	r := &rows{first: map[digest.Digest]int{}, metadata: map[string][]byte{}}
	for _, one := range records.Counted(message, nil, entriesOfDefinition) {
		r.add(one.Held)
	}
	for _, one := range records.Counted(message, nil, metadataOfDefinition) {
		given := records.Of(one.Held)
		r.metadata[records.Last(given, keyOfEntry)] = records.Joined(records.Counted(given, nil, valueOfEntry))
	}
	if len(r.entries) > 0 {
		r.terminal = r.first[digest.FromBytes(r.entries[len(r.entries)-1])]
	}
	return r, nil
}

func (r *rows) add(entry []byte) {
	row, name, op := len(r.entries), digest.FromBytes(entry), (*pb.Op)(nil)
	if _, ok := r.first[name]; !ok {
		r.first[name] = row
		if one := new(pb.Op); one.Unmarshal(entry) == nil {
			op = one
		}
	}
	r.entries, r.ops = append(r.entries, entry), append(r.ops, op)
}

// reached returns the rows that are reached from the result, in order, without the terminal; if they are not known, all.
func (r *rows) reached() []int {
	seen := map[int]bool{}
	if last := r.ops[r.terminal]; last == nil || len(last.Inputs) == 0 || !r.reach(last.Inputs[0].Digest, seen) {
		for row, op := range r.ops {
			seen[row] = op != nil && row != r.terminal
		}
	}
	var out []int
	for row := range r.ops {
		if seen[row] {
			out = append(out, row)
		}
	}
	return out
}

// reach adds what an input leads to, and returns whether all of it is known.
func (r *rows) reach(start digest.Digest, seen map[int]bool) bool {
	for todo := []digest.Digest{start}; len(todo) > 0; {
		row, ok := r.first[todo[len(todo)-1]]
		todo = todo[:len(todo)-1]
		if !ok || row == r.terminal || r.ops[row] == nil {
			return false
		}
		if seen[row] {
			continue
		}
		seen[row] = true
		for _, input := range r.ops[row].Inputs {
			todo = append(todo, input.Digest)
		}
	}
	return true
}

// Definition returns the notes of a definition by row: those of fields without an effect, and of what BuildKit's daemon dies of.
// Where its graph can be read, there are also those of the rules that can matter.
func (t *Table) Definition(ctx context.Context, data []byte) ([]RowNote, error) {
	r, err := read(data)
	if err != nil || len(r.entries) == 0 {
		return nil, err
	}
	var out []RowNote
	reached := r.reached()
	for _, row := range reached {
		metadata := r.metadata[digest.FromBytes(r.entries[row]).String()]
		for _, one := range t.all(r.entries[row], metadata) {
			out = append(out, RowNote{row, one.Name, cmp.Or(one.Part, one.Key), KindField})
		}
	}
	for _, row := range reached {
		for _, one := range rules.Breaking(r.ops[row]) {
			out = append(out, RowNote{row, one.Name, one.Part(), KindBreaks})
		}
	}
	out = append(out, r.unknownInputs()...)
	found, err := r.possible(ctx)
	if err != nil {
		return nil, err
	}
	out = append(out, found...)
	slices.SortStableFunc(out, func(a, b RowNote) int { return cmp.Compare(a.Row, b.Row) })
	return withoutRepeats(out), nil
}

// unknownInputs returns a note for each input of any entry, reached or not, that names no entry.
func (r *rows) unknownInputs() []RowNote {
	var out []RowNote
	for row, op := range r.ops {
		for i, input := range op.GetInputs() {
			if _, ok := r.first[input.Digest]; !ok {
				out = append(out, RowNote{row, rules.UnknownInput, fmt.Sprintf("input %d", i), KindBreaks})
			}
		}
	}
	return out
}

// possible returns the notes of rules that can matter; none if the graph can't be read.
func (r *rows) possible(ctx context.Context) ([]RowNote, error) {
	def := &pb.Definition{Def: r.entries}
	g, err := graph.Read(def, def)
	if err != nil {
		return nil, nil
	}
	found, err := rules.Possible(ctx, g.Vertices)
	if err != nil {
		return nil, err
	}
	var out []RowNote
	for _, one := range found {
		out = append(out, RowNote{g.Vertices[one.Vertex].Row, one.Name, one.Part(), KindRule})
	}
	return out, nil
}

func withoutRepeats(given []RowNote) []RowNote {
	seen := map[RowNote]bool{}
	return slices.DeleteFunc(given, func(one RowNote) bool {
		before := seen[one]
		seen[one] = true
		return before
	})
}
