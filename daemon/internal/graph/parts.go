package graph

import (
	"slices"

	"github.com/moby/buildkit/solver/pb"
	digest "github.com/opencontainers/go-digest"
)

// A Part is one of the file ops that together do what a file op does. The last one has the op's outputs.
type Part struct {
	Op     *pb.FileOp
	Inputs []PartInput
}

// A PartInput is an output of an earlier part, or, if there is none, an input of the op.
type PartInput struct{ Part, Index int }

// WholeOp is in a PartInput the place of an earlier part where there is none.
const WholeOp = -1

// A divider makes several entries of one.
type divider struct {
	parts map[int][]Part
	extra [][]byte
	rows  []int // of which each extra entry is a part
}

// Divide returns a definition in which rows are divided into parts. The last part has the place of its row, and all others are before
// the last entry, which names the result; for each of these it returns the row.
func Divide(def *pb.Definition, parts map[int][]Part) (*pb.Definition, []int, error) {
	if len(parts) == 0 {
		return def, nil, nil
	}
	r, _, err := rowsOf(def)
	if err != nil {
		return nil, nil, err
	}
	d := &divider{parts: parts}
	w := newRewriter(r, def.Def, d.entry)
	for k := range parts {
		w.changed[k] = true
	}
	out, err := w.definition(def)
	if err != nil {
		return nil, nil, err
	}
	last := len(out.Def) - 1
	out.Def = slices.Concat(out.Def[:last], d.extra, out.Def[last:])
	for i, entry := range d.extra {
		moveNames(out, digest.FromBytes(def.Def[d.rows[i]]), digest.FromBytes(entry))
	}
	return out, d.rows, nil
}

// entry returns the entry of a row, and notes those of its earlier parts.
func (d *divider) entry(row int, op *pb.Op) ([]byte, error) {
	if d.parts[row] == nil {
		return op.Marshal()
	}
	var made [][]byte
	for _, part := range d.parts[row] {
		one := *op
		one.Op, one.Inputs = &pb.Op_File{File: part.Op}, nil
		for _, in := range part.Inputs {
			input := &pb.Input{Index: pb.OutputIndex(in.Index)}
			if in.Part == WholeOp {
				input = op.Inputs[in.Index]
			} else {
				input.Digest = digest.FromBytes(made[in.Part])
			}
			one.Inputs = append(one.Inputs, input)
		}
		entry, err := one.Marshal()
		if err != nil {
			return nil, err
		}
		made = append(made, entry)
	}
	last := len(made) - 1
	for _, entry := range made[:last] {
		d.extra, d.rows = append(d.extra, entry), append(d.rows, row)
	}
	return made[last], nil
}

// origins has for each row of a divided definition the row of the definition that it was made of, and how many actions the parts
// before it have.
type origins struct{ rows, before []int }

// originsOf returns the origins, given the rows of the entries that are further ones.
func (r *rows) originsOf(parts []int) origins {
	first := len(r.ops) - 1 - len(parts)
	o := origins{before: make([]int, len(r.ops))}
	actions := map[int]int{}
	for k := range r.ops {
		switch {
		case k < first:
			o.rows = append(o.rows, k)
		case k < len(r.ops)-1:
			row := parts[k-first]
			o.rows, o.before[k] = append(o.rows, row), actions[row]
			actions[row] += len(r.ops[k].GetFile().GetActions())
		default:
			o.rows = append(o.rows, first)
		}
	}
	for row, count := range actions {
		o.before[row] = count
	}
	return o
}
