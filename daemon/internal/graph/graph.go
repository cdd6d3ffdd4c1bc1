// Package graph reads the graph of a definition: which entries its result depends on, and what clients call them.
package graph

import (
	"bytes"
	"errors"
	"fmt"
	"slices"
	"strings"

	"github.com/moby/buildkit/solver/errdefs"
	"github.com/moby/buildkit/solver/pb"
	digest "github.com/opencontainers/go-digest"
	"google.golang.org/grpc/status"
	"llbm/daemon/internal/machine"
	"llbm/daemon/internal/messages"
	"llbm/daemon/internal/printable"
)

// mostOfName bounds the bytes of a vertex' name in a message.
const mostOfName = 200

// A Vertex is an entry that the result depends on.
type Vertex struct {
	Op     *pb.Op
	Sent   *pb.Op        // the op as the client sent it: the same one, unless it was rewritten
	Entry  digest.Digest // of the op's bytes
	Row    int           // of the definition as the client sent it
	Place  int           // the entry's own row: another one only for further entries
	Inputs []int         // the vertices that the op's inputs name
	// Whole is the vertex itself, or the last part of the op of which it is a part; before it are parts with some actions.
	Whole, Before int
	// Digest, Needs and Name are what clients know of the vertex: of the entry as the client sent it.
	Digest digest.Digest
	Needs  []digest.Digest
	Name   string
	Group  *pb.ProgressGroup
}

// A Graph has each vertex after those that its inputs name. llbm has its own numbers of them, which only a graph that was read by
// these (ReadNumbered) has too.
type Graph struct {
	Vertices       []Vertex
	Result, Output int
	// Canonical is whether llbm reads each op as this package does: its bytes are those that this package writes.
	Canonical bool
	// Def is the definition that was read, and Sent the one that the client sent, from which Def was rewritten row by row. Parts are the
	// rows of Sent for which Def has further entries, before its last one.
	Def, Sent *pb.Definition
	Parts     []int
}

// Entries returns the bytes of a definition that llbm reads.
func Entries(def *pb.Definition) ([]byte, error) { return (&pb.Definition{Def: def.Def}).Marshal() }

// rows are the entries of a definition, with the first row of each digest.
type rows struct {
	ops     []*pb.Op
	digests []digest.Digest
	first   map[digest.Digest]int
}

func rowsOf(def *pb.Definition) (*rows, bool, error) {
	r, canonical := &rows{first: map[digest.Digest]int{}}, true
	for k, entry := range def.Def {
		op := &pb.Op{}
		if err := op.Unmarshal(entry); err != nil {
			return nil, false, fmt.Errorf("entry %d: %w", k, err)
		}
		is, err := isWritten(op, entry)
		canonical = canonical && err == nil && is
		d := digest.FromBytes(entry)
		if _, ok := r.first[d]; !ok {
			r.first[d] = k
		}
		r.ops, r.digests = append(r.ops, op), append(r.digests, d)
	}
	return r, canonical, nil
}

// isWritten is whether an entry has the bytes that this package writes for its op.
func isWritten(op *pb.Op, entry []byte) (bool, error) {
	again, err := op.Marshal()
	return bytes.Equal(again, entry), err
}

// inputs returns the rows that the inputs of a row name.
func (r *rows) inputs(k int) ([]int, error) {
	out := make([]int, 0, len(r.ops[k].Inputs))
	for _, in := range r.ops[k].Inputs {
		row, ok := r.first[in.Digest]
		if !ok {
			return nil, fmt.Errorf("entry %d: no entry has the digest %s", k, in.Digest)
		}
		out = append(out, row)
	}
	return out, nil
}

// Read reads the graph of a definition that llbm may not have seen, and refuses one whose ops name what they have not.
func Read(def, sent *pb.Definition, parts ...int) (*Graph, error) {
	g, err := Load(def, sent, parts...)
	return checked(g, err)
}

// ReadNumbered reads the graph of a definition of which llbm has read the same, by the rows of its vertices.
func ReadNumbered(def *pb.Definition, numbered []int) (*Graph, error) {
	return checked(load(def, def, nil, func(r *rows) ([]int, error) { return r.checked(numbered) }))
}

// checked refuses a graph whose ops name what they have not.
func checked(g *Graph, err error) (*Graph, error) {
	if err != nil {
		return nil, err
	}
	for v := range g.Vertices {
		if err := checkIndexes(g.Vertices[v].Op); err != nil {
			return nil, fmt.Errorf("entry %d: %w", g.Vertices[v].Row, err)
		}
	}
	return g, nil
}

// Load reads the graph of a definition. The client sent the other definition, from which the first was rewritten row by row;
// it may be the same. Further entries, before the last one, are parts of some rows.
func Load(def, sent *pb.Definition, parts ...int) (*Graph, error) {
	return load(def, sent, parts, (*rows).order)
}

// load reads a graph, whose vertices have an order.
func load(def, sent *pb.Definition, parts []int, ordered func(*rows) ([]int, error)) (*Graph, error) {
	r, canonical, err := rowsOf(def)
	if err != nil {
		return nil, err
	}
	if len(r.ops) == 0 || len(sent.Def) != len(r.ops)-len(parts) {
		return nil, fmt.Errorf("%d entries, and %d before", len(r.ops), len(sent.Def))
	}
	order, err := ordered(r)
	if err != nil {
		return nil, err
	}
	number := map[int]int{}
	for v, k := range order {
		number[k] = v
	}
	g, from := &Graph{Canonical: canonical, Def: def, Sent: sent, Parts: parts}, r.originsOf(parts)
	for _, k := range order {
		v := g.vertex(r.ops[k], r.digests[k], def.Def[k], from.rows[k])
		v.Place = k
		v.Whole, v.Before = number[from.rows[k]], from.before[k]
		inputs, err := r.inputs(k)
		if err != nil {
			return nil, err
		}
		for _, row := range inputs {
			v.Inputs = append(v.Inputs, number[row])
			v.Needs = append(v.Needs, g.Vertices[number[row]].Digest)
		}
		g.Vertices = append(g.Vertices, v)
	}
	result, output, err := r.result()
	if err != nil {
		return nil, err
	}
	g.Result, g.Output = number[result], output
	return g, nil
}

// vertex returns the vertex of an op, which was made of a row of the definition that was sent, without its inputs.
func (g *Graph) vertex(op *pb.Op, named digest.Digest, entry []byte, row int) Vertex {
	v := Vertex{Op: op, Sent: op, Entry: named, Row: row, Digest: named}
	if before := g.Sent.Def[row]; !bytes.Equal(before, entry) {
		v.Sent, v.Digest = sentOp(before, op), digest.FromBytes(before)
	}
	metadata := g.Sent.Metadata[v.Digest]
	v.Name, v.Group = Describe(metadata, v.Sent), metadata.ProgressGroup
	return v
}

// Find returns the vertex of a row of the definition that was sent: of parts the last one.
func (g *Graph) Find(row int) (int, bool) {
	v := slices.IndexFunc(g.Vertices, func(one Vertex) bool { return one.Row == row })
	if v < 0 {
		return 0, false
	}
	return g.Vertices[v].Whole, true
}

// sentOp returns the op as the client sent it, or else the op that it was rewritten to.
func sentOp(entry []byte, op *pb.Op) *pb.Op {
	before := &pb.Op{}
	if before.Unmarshal(entry) == nil {
		return before
	}
	return op
}

// result returns the row and the output that the first input of the terminal names. Like llbm, it does not look at further ones.
func (r *rows) result() (row, output int, err error) {
	last := len(r.ops) - 1
	if len(r.ops[last].Inputs) == 0 {
		return 0, 0, fmt.Errorf("entry %d: the terminal has no input", last)
	}
	first := r.ops[last].Inputs[0]
	row, ok := r.first[first.Digest]
	if !ok {
		return 0, 0, fmt.Errorf("entry %d: no entry has the digest %s", last, first.Digest)
	}
	return row, int(first.Index), nil
}

// order returns the rows that the result depends on, each after those that it names.
func (r *rows) order() ([]int, error) {
	result, _, err := r.result()
	if err != nil {
		return nil, err
	}
	var order []int
	w := newWalk(r, func(k int) error {
		_, err := r.inputs(k)
		order = append(order, k)
		return err
	})
	return order, w.to(result)
}

// checked returns the rows of vertices by llbm's numbers, if each of them is after those that it names, and the result is one.
func (r *rows) checked(numbered []int) ([]int, error) {
	result, _, err := r.result()
	if err != nil {
		return nil, err
	}
	seen := map[int]bool{}
	for _, k := range numbered {
		if k < 0 || k >= len(r.ops) || seen[k] {
			return nil, fmt.Errorf("row %d is no vertex", k)
		}
		inputs, err := r.inputs(k)
		if err != nil {
			return nil, err
		}
		for _, row := range inputs {
			if !seen[row] {
				return nil, fmt.Errorf("entry %d is numbered before entry %d, which it names", k, row)
			}
		}
		seen[k] = true
	}
	if !seen[result] {
		return nil, fmt.Errorf("entry %d, the result, is not numbered", result)
	}
	return numbered, nil
}

// NameOf returns the client's name for an entry: its description, or the command of a Dockerfile.
func NameOf(metadata pb.OpMetadata) string {
	if name := metadata.Description["llb.customname"]; name != "" {
		return name
	}
	return metadata.Description["com.docker.dockerfile.v1.command"]
}

// Describe names an op for a person: by the client's name for it, or by what it does.
func Describe(metadata pb.OpMetadata, op *pb.Op) string {
	if name := metadata.Description["llb.customname"]; name != "" {
		return name
	}
	switch o := op.Op.(type) {
	case *pb.Op_Source:
		return o.Source.GetIdentifier()
	case *pb.Op_Exec:
		return strings.Join(o.Exec.GetMeta().GetArgs(), " ")
	case *pb.Op_File:
		var words []string
		for _, a := range o.File.GetActions() {
			words = append(words, describeAction(a))
		}
		return strings.Join(words, ", ")
	case *pb.Op_Merge:
		return "merge"
	case *pb.Op_Diff:
		return "diff"
	}
	return "op"
}

func describeAction(action *pb.FileAction) string {
	switch x := action.GetAction().(type) {
	case *pb.FileAction_Mkfile:
		return "mkfile " + x.Mkfile.GetPath()
	case *pb.FileAction_Mkdir:
		return "mkdir " + x.Mkdir.GetPath()
	case *pb.FileAction_Rm:
		return "rm " + x.Rm.GetPath()
	case *pb.FileAction_Copy:
		return "copy " + x.Copy.GetSrc() + " " + x.Copy.GetDest()
	}
	return "action"
}

// Wrap adds to an error which vertex it is of, and the places in files from which the client made the vertex.
func (g *Graph) Wrap(v int, err error) error {
	return located(g.Sent, g.Vertices[v].Digest, errdefs.WrapVertex(err, g.Vertices[v].Digest))
}

func located(def *pb.Definition, d digest.Digest, err error) error {
	if def.Source == nil || def.Source.Locations[d.String()] == nil {
		return err
	}
	for _, place := range def.Source.Locations[d.String()].Locations {
		if i := int(place.SourceIndex); i >= 0 && i < len(def.Source.Infos) {
			err = errdefs.WithSource(err, errdefs.Source{Info: def.Source.Infos[i], Ranges: place.Ranges})
		}
	}
	return err
}

// WrapRow adds to a refusal of llbm which names a row, as `llbm: fault 88 k ..`, what the client knows of this row, and what a function
// says of it and of the row's op.
func WrapRow(sent *pb.Definition, err error, more func(refusal *machine.Refusal, op *pb.Op) string) error {
	var refusal *machine.Refusal
	if !errors.As(err, &refusal) || refusal.Number < 82 || refusal.Number == 83 || refusal.Number > 90 {
		return err
	}
	k := refusal.Second
	if k < 0 || k >= len(sent.Def) {
		return err
	}
	st := refusal.GRPCStatus()
	d := digest.FromBytes(sent.Def[k])
	op := &pb.Op{}
	if op.Unmarshal(sent.Def[k]) == nil {
		name := printable.Cut(printable.Of(Describe(sent.Metadata[d], op)), mostOfName)
		err = status.Error(st.Code(), messages.Text(fmt.Sprintf("%s (%s)%s", st.Message(), name, more(refusal, op))))
	}
	return located(sent, d, errdefs.WrapVertex(err, d))
}
