package graph

import (
	"github.com/gogo/protobuf/protoc-gen-gogo/descriptor"
	"github.com/moby/buildkit/solver/pb"
	"google.golang.org/protobuf/encoding/protowire"
)

// mostNested is how deep the messages of an op are nested at most.
const mostNested = 16

// nameOfOp is the full name of an op's message.
const nameOfOp = ".pb.Op"

// messageTypes has the messages of ops by their full names, and those of maps' entries.
var messageTypes = typesOf(&pb.Op{})

func typesOf(one descriptor.Message) map[string]*descriptor.DescriptorProto {
	file, _ := descriptor.ForMessage(one)
	found := map[string]*descriptor.DescriptorProto{}
	for _, message := range file.GetMessageType() {
		name := "." + file.GetPackage() + "." + message.GetName()
		found[name] = message
		for _, nested := range message.GetNestedType() {
			found[name+"."+nested.GetName()] = nested
		}
	}
	return found
}

// hasUnknown is whether a message, or one in it, has a field that BuildKit's library does not know, or can't be read.
func hasUnknown(data []byte, name string, depth int) bool {
	message := messageTypes[name]
	if message == nil || depth > mostNested {
		return true
	}
	for len(data) > 0 {
		number, form, length := protowire.ConsumeTag(data)
		if length < 0 {
			return true
		}
		field := fieldOf(message, number)
		size := protowire.ConsumeFieldValue(number, form, data[length:])
		if field == nil || size < 0 {
			return true
		}
		if field.GetType() == descriptor.FieldDescriptorProto_TYPE_MESSAGE {
			held, _ := protowire.ConsumeBytes(data[length:])
			if form != protowire.BytesType || hasUnknown(held, field.GetTypeName(), depth+1) {
				return true
			}
		}
		data = data[length+size:]
	}
	return false
}

func fieldOf(message *descriptor.DescriptorProto, number protowire.Number) *descriptor.FieldDescriptorProto {
	for _, field := range message.GetField() {
		if field.GetNumber() == int32(number) {
			return field
		}
	}
	return nil
}

// Respelled returns a definition whose ops have the bytes that BuildKit's library writes, so that llbm reads what BuildKit reads:
// another library may write fields, or the entries of maps, in another order, or fields that have their defaults. The same definition
// is returned if there is nothing to change, if it can't be read, or if an op has a field that is not known.
func Respelled(def *pb.Definition) *pb.Definition {
	r, isCanonical, err := rowsOf(def)
	if isCanonical || err != nil {
		return def
	}
	odd := map[int]bool{}
	for k, op := range r.ops {
		is, err := isWritten(op, def.Def[k])
		if odd[k] = !is; err != nil || !is && hasUnknown(def.Def[k], nameOfOp, 0) {
			return def
		}
	}
	new, err := Rewrite(def, func(row int, _ *pb.Op) (bool, error) { return odd[row], nil })
	if err != nil {
		return def
	}
	return new
}
