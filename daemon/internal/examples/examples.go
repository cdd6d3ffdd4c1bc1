// Package examples has the least examples of the rules by which BuildKit ends otherwise: examples.json, and the definitions that
// it stands for.
//
// An example has the trees of local sources, by name, without their roots unless they matter, and the sources' attributes, if they
// have some; ops by name, each on sources and ops before it; and what BuildKit and llbm make of the last op, without the root, or
// null where it fails. A mode is octal, and an owner a list of a user and a group. Actions are a chain from the first input; a copy
// takes its sources from the second one; the last action is the output. `adopted` says when `adopt --like-buildkit` makes both agree:
// `always`, or `trees`, given the trees of the sources.
package examples

import (
	"bytes"
	_ "embed" // the examples
	"encoding/json"
	"errors"
	"fmt"
	"strconv"
	"strings"

	"github.com/moby/buildkit/solver/pb"
	digest "github.com/opencontainers/go-digest"
)

// When both agree once an example is adopted; nothing is never.
const (
	Always  = "always"
	ByTrees = "trees"
)

//go:embed examples.json
var stored []byte

const (
	root    = "d 0755 0 0 /"
	nothing = -1
)

// An Example has what it shows, its definition, the texts of its sources' trees, and the lines of its results: none where it
// fails.
type Example struct {
	Rule       string            `json:"rule"`
	Shows      string            `json:"shows"`
	Definition []byte            `json:"definition"`
	Trees      map[string]string `json:"trees"`
	BuildKit   []string          `json:"buildkit"`
	LLBM       []string          `json:"llbm"`
	Adopted    string            `json:"adopted"` // when both agree once it is adopted for BuildKit: always, by its trees, or not
}

// A written is an example as the file has it.
type written struct {
	Rule, Shows    string
	Trees          ordered[[]string]
	Attributes     map[string]map[string]string
	Ops            ordered[op]
	BuildKit, LLBM []string
	Adopted        string
}

type op struct {
	On    []string
	Merge *[]int64
	File  []action
}

// An ordered is an object of JSON whose members keep their order.
type ordered[T any] []member[T]

type member[T any] struct {
	name string
	held T
}

func (o *ordered[T]) UnmarshalJSON(text []byte) error {
	in := json.NewDecoder(bytes.NewReader(text))
	in.DisallowUnknownFields()
	if _, err := in.Token(); err != nil {
		return err
	}
	for in.More() {
		name, err := in.Token()
		if err != nil {
			return err
		}
		one := member[T]{name: fmt.Sprint(name)}
		if err := in.Decode(&one.held); err != nil {
			return err
		}
		*o = append(*o, one)
	}
	return nil
}

// All returns the examples, in order.
func All() ([]Example, error) {
	var given []written
	in := json.NewDecoder(bytes.NewReader(stored))
	in.DisallowUnknownFields()
	if err := in.Decode(&given); err != nil {
		return nil, err
	}
	var out []Example
	for _, one := range given {
		made, err := one.example()
		if err != nil {
			return nil, fmt.Errorf("%s: %w", one.Shows, err)
		}
		out = append(out, made)
	}
	return out, nil
}

func (w *written) example() (Example, error) {
	made := Example{Rule: w.Rule, Shows: w.Shows, Trees: map[string]string{}, BuildKit: w.BuildKit, LLBM: w.LLBM, Adopted: w.Adopted}
	d := definition{named: map[string]digest.Digest{}}
	for _, tree := range w.Trees {
		made.Trees[tree.name] = treeText(tree.held)
		source := &pb.SourceOp{Identifier: "local://" + tree.name, Attrs: w.Attributes[tree.name]}
		if err := d.add(tree.name, &pb.Op{Op: &pb.Op_Source{Source: source}}); err != nil {
			return made, err
		}
	}
	for _, one := range w.Ops {
		op, err := one.held.op(&d)
		if err == nil {
			err = d.add(one.name, op)
		}
		if err != nil {
			return made, err
		}
	}
	last := &pb.Op{Inputs: []*pb.Input{{Digest: d.last}}}
	err := d.add("", last)
	if err == nil {
		made.Definition, err = (&pb.Definition{Def: d.entries}).Marshal()
	}
	return made, err
}

// treeText returns the text of a tree from its lines in path order, with a root if it has none.
func treeText(lines []string) string {
	if len(lines) == 0 || !strings.HasSuffix(lines[0], " /") {
		lines = append([]string{root}, lines...)
	}
	return strings.Join(lines, "\n") + "\n"
}

// A definition is one while its entries are added.
type definition struct {
	entries [][]byte
	named   map[string]digest.Digest
	last    digest.Digest
}

func (d *definition) add(name string, op *pb.Op) error {
	entry, err := op.Marshal()
	if err != nil {
		return err
	}
	d.last = digest.FromBytes(entry)
	d.named[name], d.entries = d.last, append(d.entries, entry)
	return nil
}

// op returns the op, on what a definition has.
func (o *op) op(d *definition) (*pb.Op, error) {
	made := &pb.Op{}
	for _, name := range o.On {
		made.Inputs = append(made.Inputs, &pb.Input{Digest: d.named[name]})
	}
	if o.Merge != nil {
		m := &pb.MergeOp{}
		for _, number := range *o.Merge {
			m.Inputs = append(m.Inputs, &pb.MergeInput{Input: pb.InputIndex(number)})
		}
		made.Op = &pb.Op_Merge{Merge: m}
		return made, nil
	}
	f := &pb.FileOp{}
	for number := range o.File {
		one, err := o.File[number].made(number, len(o.On), number == len(o.File)-1)
		if err != nil {
			return nil, err
		}
		f.Actions = append(f.Actions, one)
	}
	made.Op = &pb.Op_File{File: f}
	return made, nil
}

// An action is of one kind; the numbers are those of a chain unless it has others.
type action struct {
	Copy, Mkfile, Mkdir, Rm       *values
	Input, SecondaryInput, Output *int64
}

// values are those of an action of any kind.
type values struct {
	Path, Src, Dest                                     string
	Mode                                                *string
	Owner                                               []*uint32
	MakeParents, AllowNotFound, AllowWildcard           bool
	AllowEmptyWildcard, CreateDestPath, DirCopyContents bool
}

// numberOr returns a number, or a usual one.
func numberOr(given *int64, usual int) int64 {
	if given != nil {
		return *given
	}
	return int64(usual)
}

// made returns the action, on some inputs of its op.
func (a *action) made(number, inputs int, isLast bool) (*pb.FileAction, error) {
	base, second, output := nothing, nothing, nothing
	if number > 0 {
		base = inputs + number - 1
	} else if inputs > 0 {
		base = 0
	}
	if a.Copy != nil {
		second = 1
	}
	if isLast {
		output = 0
	}
	made := &pb.FileAction{
		Input: pb.InputIndex(numberOr(a.Input, base)), SecondaryInput: pb.InputIndex(numberOr(a.SecondaryInput, second)),
		Output: pb.OutputIndex(numberOr(a.Output, output)),
	}
	return made, a.setKind(made)
}

func (a *action) setKind(to *pb.FileAction) error {
	var mode int32
	var err error
	switch {
	case a.Copy != nil:
		mode, err = a.Copy.mode(-1)
		to.Action = &pb.FileAction_Copy{Copy: &pb.FileActionCopy{
			Src: a.Copy.Src, Dest: a.Copy.Dest, Owner: a.Copy.owner(), Mode: mode, Timestamp: -1, AllowWildcard: a.Copy.AllowWildcard,
			AllowEmptyWildcard: a.Copy.AllowEmptyWildcard, CreateDestPath: a.Copy.CreateDestPath,
			DirCopyContents: a.Copy.DirCopyContents,
		}}
	case a.Mkfile != nil:
		mode, err = a.Mkfile.mode(0o644)
		made := &pb.FileActionMkFile{Path: a.Mkfile.Path, Mode: mode, Data: []byte("x"), Owner: a.Mkfile.owner(), Timestamp: -1}
		to.Action = &pb.FileAction_Mkfile{Mkfile: made}
	case a.Mkdir != nil:
		mode, err = a.Mkdir.mode(0o755)
		made := &pb.FileActionMkDir{Path: a.Mkdir.Path, Mode: mode, MakeParents: a.Mkdir.MakeParents, Owner: a.Mkdir.owner(), Timestamp: -1}
		to.Action = &pb.FileAction_Mkdir{Mkdir: made}
	case a.Rm != nil:
		made := &pb.FileActionRm{Path: a.Rm.Path, AllowNotFound: a.Rm.AllowNotFound, AllowWildcard: a.Rm.AllowWildcard}
		to.Action = &pb.FileAction_Rm{Rm: made}
	default:
		err = errors.New("an action has no kind")
	}
	return err
}

// mode returns the octal mode, or a usual one.
func (v *values) mode(usual int32) (int32, error) {
	if v.Mode == nil {
		return usual, nil
	}
	n, err := strconv.ParseInt(*v.Mode, 8, 32)
	return int32(n), err
}

func (v *values) owner() *pb.ChownOpt {
	if len(v.Owner) != 2 {
		return nil
	}
	one := func(number *uint32) *pb.UserOpt {
		if number == nil {
			return nil
		}
		return &pb.UserOpt{User: &pb.UserOpt_ByID{ByID: *number}}
	}
	return &pb.ChownOpt{User: one(v.Owner[0]), Group: one(v.Owner[1])}
}
