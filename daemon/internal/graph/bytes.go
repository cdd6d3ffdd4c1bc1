package graph

import (
	"bytes"
	"reflect"
	"slices"
	"strconv"
	"strings"

	"github.com/moby/buildkit/solver/pb"
	digest "github.com/opencontainers/go-digest"
	"google.golang.org/protobuf/encoding/protowire"
	"llbm/daemon/internal/records"
)

// Fields of a definition and of what is in it.
const (
	fieldEntries   = 1 // of a definition
	fieldMetadata  = 2
	fieldSource    = 3
	fieldLocations = 1 // of its source
	fieldKey       = 1 // of an entry of a map
	fieldInputs    = 1 // of an op
	fieldFile      = 4
	fieldMerge     = 6
	fieldActions   = 2 // of a file op
)

// Kinds are the fields of an op, and of an action, of which only one is set.
var kindsOfOp, kindsOfAction = []protowire.Number{2, 3, 4, 5, 6, 7}, []protowire.Number{4, 5, 6, 7}

// A Change is the new op of a row. Actions has for each action of a file op the one that it comes from, or -1.
type Change struct {
	Op      *pb.Op
	Actions []int
}

// ReadBytes reads the graph of the bytes of a definition, whatever its metadata and its source are. It returns the entries, too.
func ReadBytes(data []byte) (*pb.Definition, *Graph, error) {
	def := entriesOf(records.Of(data))
	g, err := Read(def, def)
	return def, g, err
}

func entriesOf(message []records.Record) *pb.Definition {
	def := &pb.Definition{}
	for _, one := range records.Counted(message, nil, fieldEntries) {
		def.Def = append(def.Def, one.Held)
	}
	return def
}

// RewriteBytes does what Rewrite does, in the bytes of a definition: what no change concerns stays as it is, also fields that
// BuildKit's library does not know. It returns the rows whose inputs got other digests, too.
func RewriteBytes(data []byte, changes map[int]Change) (new []byte, linked []int, err error) {
	message := records.Of(data)
	def := entriesOf(message)
	r, _, err := rowsOf(def)
	if err != nil || len(changes) == 0 {
		return data, nil, err
	}
	sent := slices.Clone(r.ops)
	w := newRewriter(r, def.Def, func(k int, op *pb.Op) ([]byte, error) {
		return spliced(def.Def[k], sent[k], Change{op, changes[k].Actions})
	})
	for k, one := range changes {
		w.changed[k], r.ops[k] = true, one.Op
	}
	names := map[string]string{}
	for k, entry := range def.Def {
		if err := w.to(k); err != nil {
			return nil, nil, err
		}
		names[digest.FromBytes(entry).String()] = digest.FromBytes(w.entries[k]).String()
	}
	isRenamed := func(one *pb.Input) bool {
		new, ok := names[string(one.Digest)]
		return ok && new != string(one.Digest)
	}
	for k, op := range r.ops {
		if slices.ContainsFunc(op.Inputs, isRenamed) {
			linked = append(linked, k)
		}
	}
	return records.Message(renamed(message, w.entries, names)), linked, nil
}

// renamed returns a definition with new entries, and with their digests as the names of their metadata and locations.
func renamed(message []records.Record, entries [][]byte, names map[string]string) []records.Record {
	var out []records.Record
	row := 0
	for _, one := range message {
		switch {
		case one.Field == fieldEntries:
			one = records.New(fieldEntries, entries[row])
			row++
		case one.Field == fieldMetadata:
			one = records.New(fieldMetadata, withName(one.Held, names))
		case one.Field == fieldSource:
			source := records.Of(one.Held)
			for i, place := range source {
				if place.Field == fieldLocations {
					source[i] = records.New(fieldLocations, withName(place.Held, names))
				}
			}
			if source != nil {
				one = records.New(fieldSource, records.Message(source))
			}
		}
		out = append(out, one)
	}
	return out
}

// withName returns an entry of a map whose key is a digest with the new one.
func withName(held []byte, names map[string]string) []byte {
	given := records.Of(held)
	new := names[records.Last(given, fieldKey)]
	if new == "" {
		return held
	}
	return records.Message(records.Placed(given, fieldKey, []records.Record{records.New(fieldKey, []byte(new))}))
}

// spliced returns an entry with the inputs of an op, and with its actions or its list of inputs where they are others.
func spliced(entry []byte, sent *pb.Op, change Change) ([]byte, error) {
	given := records.Of(entry)
	var inputs []records.Record
	old := records.Counted(given, nil, fieldInputs)
	for i, one := range change.Op.Inputs {
		if i < len(old) && *one == *sent.Inputs[i] {
			inputs = append(inputs, old[i])
			continue
		}
		held, err := one.Marshal()
		if err != nil {
			return nil, err
		}
		inputs = append(inputs, records.New(fieldInputs, held))
	}
	given = records.Placed(given, fieldInputs, inputs)
	member, held, err := splicedMember(given, sent, change)
	if err != nil || member == 0 {
		return records.Message(given), err
	}
	given = slices.DeleteFunc(given, func(one records.Record) bool {
		return one.Field != member && slices.Contains(kindsOfOp, one.Field)
	})
	return records.Message(records.Placed(given, member, []records.Record{records.New(member, held)})), nil
}

// splicedMember returns the field of an op's kind and its new bytes, or no field if it stays.
func splicedMember(given []records.Record, sent *pb.Op, change Change) (protowire.Number, []byte, error) {
	if merge := change.Op.GetMerge(); merge != nil && merge != sent.GetMerge() {
		held, err := merge.Marshal()
		return fieldMerge, held, err
	}
	file := change.Op.GetFile()
	if file == nil || file == sent.GetFile() {
		return 0, nil, nil
	}
	before := records.Of(records.Joined(records.Counted(given, kindsOfOp, fieldFile)))
	old := records.Counted(before, nil, fieldActions)
	var actions []records.Record
	for i, action := range file.Actions {
		from := -1
		if i < len(change.Actions) {
			from = change.Actions[i]
		}
		if from < 0 || from >= len(old) {
			held, err := action.Marshal()
			if err != nil {
				return 0, nil, err
			}
			actions = append(actions, records.New(fieldActions, held))
			continue
		}
		held, err := splicedAction(old[from].Held, sent.GetFile().Actions[from], action)
		if err != nil {
			return 0, nil, err
		}
		actions = append(actions, records.New(fieldActions, held))
	}
	return fieldFile, records.Message(records.Placed(before, fieldActions, actions)), nil
}

// splicedAction returns an action: its old bytes if it stays as it is, or else its new ones with what the library does not know of
// the old ones.
func splicedAction(old []byte, sent, action *pb.FileAction) ([]byte, error) {
	new, err := action.Marshal()
	if err != nil {
		return nil, err
	}
	if before, err := sent.Marshal(); err != nil || bytes.Equal(before, new) {
		return old, err
	}
	given, made := records.Of(old), records.Of(new)
	made = append(made, unknown(given, reflect.TypeFor[pb.FileAction](), kindsOfAction...)...)
	kind, of := memberOf(action)
	held := records.Joined(records.Counted(made, kindsOfAction, kind))
	rest := unknown(records.Of(records.Joined(records.Counted(given, kindsOfAction, kind))), of)
	if len(rest) > 0 {
		made = records.Placed(made, kind, []records.Record{records.New(kind, slices.Concat(held, records.Message(rest)))})
	}
	return records.Message(made), nil
}

// memberOf returns the field and the type of an action's member.
func memberOf(action *pb.FileAction) (protowire.Number, reflect.Type) {
	switch action.Action.(type) {
	case *pb.FileAction_Copy:
		return 4, reflect.TypeFor[pb.FileActionCopy]()
	case *pb.FileAction_Mkfile:
		return 5, reflect.TypeFor[pb.FileActionMkFile]()
	case *pb.FileAction_Mkdir:
		return 6, reflect.TypeFor[pb.FileActionMkDir]()
	}
	return 7, reflect.TypeFor[pb.FileActionRm]()
}

// unknown returns the records of a message whose fields the library's type has not, given the fields of which its type has no tag.
func unknown(given []records.Record, of reflect.Type, untagged ...protowire.Number) []records.Record {
	known := map[protowire.Number]bool{}
	for _, number := range untagged {
		known[number] = true
	}
	for i := range of.NumField() {
		if parts := strings.Split(of.Field(i).Tag.Get("protobuf"), ","); len(parts) > 1 {
			if number, err := strconv.Atoi(parts[1]); err == nil {
				known[protowire.Number(number)] = true
			}
		}
	}
	return slices.DeleteFunc(slices.Clone(given), func(one records.Record) bool { return known[one.Field] })
}
