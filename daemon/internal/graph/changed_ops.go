package graph

import (
	"maps"

	"github.com/moby/buildkit/solver/pb"
	digest "github.com/opencontainers/go-digest"
)

// Rewrite returns a definition with some ops changed and, row by row, all inputs that name them. A function changes the op of
// a row, and returns whether it did so. If none is changed the same definition is returned.
func Rewrite(def *pb.Definition, change func(row int, op *pb.Op) (bool, error)) (*pb.Definition, error) {
	r, _, err := rowsOf(def)
	if err != nil {
		return nil, err
	}
	w := newRewriter(r, def.Def, func(_ int, op *pb.Op) ([]byte, error) { return op.Marshal() })
	for k := range r.ops {
		did, err := change(k, r.ops[k])
		if err != nil {
			return nil, err
		}
		if did {
			w.changed[k] = true
		}
	}
	if len(w.changed) == 0 {
		return def, nil
	}
	return w.definition(def)
}

// definition returns a definition with the new entries.
func (w *rewriter) definition(def *pb.Definition) (*pb.Definition, error) {
	out := &pb.Definition{Metadata: maps.Clone(def.Metadata), Source: def.Source}
	if def.Source != nil {
		out.Source = &pb.Source{Locations: maps.Clone(def.Source.Locations), Infos: def.Source.Infos}
	}
	for k, entry := range def.Def {
		if err := w.to(k); err != nil {
			return nil, err
		}
		out.Def = append(out.Def, w.entries[k])
		moveNames(out, digest.FromBytes(entry), digest.FromBytes(w.entries[k]))
	}
	return out, nil
}

// moveNames gives a rewritten entry the metadata and the places of the entry before.
func moveNames(def *pb.Definition, old, new digest.Digest) {
	if metadata, ok := def.Metadata[old]; ok {
		def.Metadata[new] = metadata
	}
	if def.Source != nil && def.Source.Locations[old.String()] != nil {
		def.Source.Locations[new.String()] = def.Source.Locations[old.String()]
	}
}

type rewriter struct {
	*walk
	old     [][]byte
	encode  func(row int, op *pb.Op) ([]byte, error)
	changed map[int]bool
	entries [][]byte
}

func newRewriter(r *rows, old [][]byte, encode func(row int, op *pb.Op) ([]byte, error)) *rewriter {
	w := &rewriter{old: old, encode: encode, changed: map[int]bool{}, entries: make([][]byte, len(r.ops))}
	w.walk = newWalk(r, w.entry)
	return w
}

// entry makes the new entry of a row, after those of the rows that it names.
func (w *rewriter) entry(k int) error {
	changed := w.changed[k]
	op := *w.rows.ops[k]
	op.Inputs = nil
	for _, in := range w.rows.ops[k].Inputs {
		renamed := *in
		if row, ok := w.rows.first[in.Digest]; ok { // else llbm refuses the definition, if the row counts
			renamed.Digest = digest.FromBytes(w.entries[row])
		}
		changed = changed || renamed.Digest != in.Digest
		op.Inputs = append(op.Inputs, &renamed)
	}
	if w.entries[k] = w.old[k]; !changed {
		return nil
	}
	entry, err := w.encode(k, &op)
	w.entries[k] = entry
	return err
}
