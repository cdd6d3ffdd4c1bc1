// Package records reads messages of protobuf record by record: BuildKit's library drops the fields that newer versions have.
package records

import (
	"bytes"
	"slices"

	"google.golang.org/protobuf/encoding/protowire"
)

// A Record is one of a message: a number, or bytes.
type Record struct {
	Field  protowire.Number
	Kind   protowire.Type
	Number uint64
	Held   []byte
	Text   []byte // the record as it is written
}

// Of returns the records of a message, or none if it can't be parsed.
func Of(message []byte) []Record {
	var out []Record
	for len(message) > 0 {
		field, kind, n := protowire.ConsumeTag(message)
		if n < 0 {
			return nil
		}
		value := message[n:]
		size := protowire.ConsumeFieldValue(field, kind, value)
		if size < 0 {
			return nil
		}
		one := Record{Field: field, Kind: kind, Text: message[:n+size]}
		switch kind {
		case protowire.VarintType:
			one.Number, _ = protowire.ConsumeVarint(value)
		case protowire.BytesType:
			one.Held, _ = protowire.ConsumeBytes(value)
		case protowire.Fixed32Type, protowire.Fixed64Type:
			one.Held = value[:size]
		default:
			return nil
		}
		out, message = append(out, one), value[size:]
	}
	return out
}

// New returns a record with bytes.
func New(field protowire.Number, held []byte) Record {
	text := protowire.AppendBytes(protowire.AppendTag(nil, field, protowire.BytesType), held)
	return Record{Field: field, Kind: protowire.BytesType, Held: held, Text: text}
}

// Message returns the bytes of a message with some records.
func Message(given []Record) []byte {
	var out bytes.Buffer
	for _, one := range given {
		out.Write(one.Text)
	}
	return out.Bytes()
}

// Counted returns the records of a field that count: of one of some kinds, of which a message has one, those after the last record
// of another kind.
func Counted(message []Record, kinds []protowire.Number, field protowire.Number) []Record {
	if slices.Contains(kinds, field) {
		for place := len(message) - 1; place >= 0; place-- {
			if one := message[place].Field; one != field && slices.Contains(kinds, one) {
				message = message[place+1:]
				break
			}
		}
	}
	var out []Record
	for _, one := range message {
		if one.Field == field {
			out = append(out, one)
		}
	}
	return out
}

// Joined returns the bytes of the records of a field that is not repeated.
func Joined(given []Record) []byte {
	var out []byte
	for _, one := range given {
		out = append(out, one.Held...)
	}
	return out
}

// Last returns the bytes of the last record of a field.
func Last(message []Record, field protowire.Number) string {
	given := Counted(message, nil, field)
	if len(given) == 0 {
		return ""
	}
	return string(given[len(given)-1].Held)
}

// Placed returns a message with the records of a field replaced by others, at the place of the first one, or else at the end.
func Placed(message []Record, field protowire.Number, new []Record) []Record {
	place := slices.IndexFunc(message, func(one Record) bool { return one.Field == field })
	if place < 0 {
		place = len(message)
	}
	rest := slices.DeleteFunc(slices.Clone(message[place:]), func(one Record) bool { return one.Field == field })
	return slices.Concat(message[:place], new, rest)
}
