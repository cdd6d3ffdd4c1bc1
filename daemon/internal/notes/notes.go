// Package notes finds what of a definition can end otherwise in BuildKit whatever its trees are: the fields that have an effect there
// and none in llbm, by the table fields.json, in the records of an entry, since BuildKit's library drops the fields that newer versions
// have; and what package rules says of ops. The daemon's notes lack what the daemon heeds: attributes of sources in the table, the
// metadata, and a platform that is the worker's. Nor is it a note there whether links are followed: no source has one, since links are
// refused, or left out with a warning of their own.
package notes

import (
	_ "embed" // the table
	"encoding/json"
	"fmt"
	"os"
	"slices"
	"strconv"

	"github.com/moby/buildkit/solver/pb"
	"google.golang.org/protobuf/encoding/protowire"
	"llbm/daemon/internal/records"
)

// builtIn is the table of the daemon, of the tools and of the page.
//
//go:embed fields.json
var builtIn []byte

// A Table has the fields. The nil table has none.
type Table struct {
	Fields         []Row       `json:"fields"`
	Metadata       []Row       `json:"metadata"`
	Attributes     []Attribute `json:"attributes"`
	OtherAttribute Attribute   `json:"other_attribute"`
	WithoutEffect  []string    `json:"attributes_without_effect"`
}

// A Row is a field. Numbers lead to it: a number is a field of the message before it, and a list of one number is a repeated
// field, the part of the op that a note names. A field is set if it has bytes, or a number that is not among Unset.
type Row struct {
	Name    string
	Numbers []json.RawMessage
	Part    string
	Unset   []int64
	Effect  string
	Advice  string
	path    []step
}

// An Attribute is one of sources, with its key. It is set if its value is not among Unset.
type Attribute struct {
	Name, Key      string
	Unset          []string
	Effect, Advice string
}

type step struct {
	number   protowire.Number
	repeated bool
}

// A Note is a field or an attribute that is set, with the part of the op in which it is, if it is in one, or the attribute's key.
type Note struct{ Name, Part, Key, Effect string }

func (n Note) String() string {
	switch {
	case n.Part != "":
		return fmt.Sprintf("%s of %s has no effect: %s", n.Name, n.Part, n.Effect)
	case n.Key != "":
		quoted := strconv.Quote(n.Key)
		return fmt.Sprintf("%s %s has no effect: %s", n.Name, quoted[1:len(quoted)-1], n.Effect)
	}
	return fmt.Sprintf("%s has no effect: %s", n.Name, n.Effect)
}

const (
	// ofLinks is the note of fields by which links are followed.
	ofLinks = "FollowSymlink"
	// ofPlatform is the note of the platform.
	ofPlatform = "Platform"
)

// BuiltIn returns the table that the daemon is built with.
func BuiltIn() (*Table, error) { return parse("the built-in table", builtIn) }

// Read reads the table from a file.
func Read(path string) (*Table, error) {
	data, err := os.ReadFile(path)
	if err != nil {
		return nil, err
	}
	return parse(path, data)
}

func parse(name string, data []byte) (*Table, error) {
	var t Table
	if err := json.Unmarshal(data, &t); err != nil {
		return nil, fmt.Errorf("%s: %w", name, err)
	}
	for _, rows := range [][]Row{t.Fields, t.Metadata} {
		for i := range rows {
			if err := rows[i].parse(); err != nil {
				return nil, fmt.Errorf("%s: %w", name, err)
			}
		}
	}
	return &t, nil
}

// parse reads the numbers that lead to the field.
func (row *Row) parse() error {
	if row.Unset == nil {
		row.Unset = []int64{0}
	}
	for _, text := range row.Numbers {
		one, list := protowire.Number(0), []protowire.Number{}
		if json.Unmarshal(text, &one) == nil {
			row.path = append(row.path, step{one, false})
		} else if json.Unmarshal(text, &list) == nil && len(list) == 1 {
			row.path = append(row.path, step{list[0], true})
		} else {
			return fmt.Errorf("%s: %s is no step to a field", row.Name, text)
		}
	}
	return nil
}

// Of returns what the daemon notes of an entry. A platform that is the worker's own is no note, nor is what the daemon heeds.
func (t *Table) Of(entry []byte, own pb.Platform) []Note {
	if t == nil {
		return nil
	}
	op := records.Of(entry)
	isOwn := isPlatform(op, own)
	return slices.DeleteFunc(append(notesOf(t.Fields, op, kindsOfOp), t.ofAttributes(op)...), func(one Note) bool {
		isHeeded := one.Key == "" && slices.ContainsFunc(t.Attributes, func(a Attribute) bool { return a.Name == one.Name })
		return one.Name == ofLinks || one.Name == ofPlatform && isOwn || isHeeded
	})
}

// all returns the notes of an entry and of its metadata.
func (t *Table) all(entry, metadata []byte) []Note {
	op := records.Of(entry)
	return slices.Concat(notesOf(t.Fields, op, kindsOfOp), t.ofAttributes(op), notesOf(t.Metadata, records.Of(metadata), nil))
}

// notesOf returns a note for each place of each field that is set in a message, of which only one of some fields counts.
func notesOf(rows []Row, message []records.Record, kinds []protowire.Number) []Note {
	var out []Note
	for i := range rows {
		row := &rows[i]
		row.find(message, kinds, row.path, "", func(part string) { out = append(out, Note{Name: row.Name, Part: part, Effect: row.Effect}) })
	}
	return out
}

// isPlatform is whether an op's platform is a given one.
func isPlatform(op []records.Record, own pb.Platform) bool {
	var p pb.Platform
	err := p.Unmarshal(records.Joined(records.Counted(op, nil, platform)))
	return err == nil && p.OS == own.OS && p.Architecture == own.Architecture && p.Variant == own.Variant
}

// ofAttributes returns a note for each attribute of a source that is set and has an effect in BuildKit, or is not in the table.
func (t *Table) ofAttributes(op []records.Record) []Note {
	var keys []string
	values := map[string]string{}
	for _, one := range records.Counted(records.Of(records.Joined(records.Counted(op, kindsOfOp, sourceOp))), nil, sourceAttributes) {
		given := records.Of(one.Held)
		key := records.Last(given, keyOfEntry)
		if _, ok := values[key]; !ok {
			keys = append(keys, key)
		}
		values[key] = records.Last(given, valueOfEntry)
	}
	var out []Note
	for _, key := range keys {
		place := slices.IndexFunc(t.Attributes, func(a Attribute) bool { return a.Key == key })
		switch {
		case slices.Contains(t.WithoutEffect, key):
		case place < 0:
			out = append(out, Note{Name: t.OtherAttribute.Name, Key: key, Effect: t.OtherAttribute.Effect})
		case !slices.Contains(t.Attributes[place].Unset, values[key]):
			out = append(out, Note{Name: t.Attributes[place].Name, Effect: t.Attributes[place].Effect})
		}
	}
	return out
}

// find calls a function for each place of the field in a message, of which only one of some fields counts: its kind.
func (row *Row) find(message []records.Record, kinds []protowire.Number, path []step, part string, found func(part string)) {
	given := records.Counted(message, kinds, path[0].number)
	switch {
	case path[0].repeated:
		inner := []protowire.Number(nil)
		if row.Part == partAction {
			inner = kindsOfAction
		}
		for index, one := range given {
			row.find(records.Of(one.Held), inner, path[1:], fmt.Sprintf("%s %d", row.Part, index), found)
		}
	case len(path) > 1:
		row.find(records.Of(records.Joined(given)), nil, path[1:], part, found)
	case row.isSet(given):
		found(part)
	}
}

// isSet is whether the records of a field give it a value that has an effect: the last one, or any that has bytes.
func (row *Row) isSet(given []records.Record) bool {
	if len(given) == 0 {
		return false
	}
	if last := given[len(given)-1]; last.Kind == protowire.VarintType {
		return !slices.Contains(row.Unset, int64(last.Number))
	}
	return len(records.Joined(given)) > 0
}
