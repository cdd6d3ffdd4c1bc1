package graph

import (
	"bytes"
	"slices"
	"testing"

	"github.com/moby/buildkit/solver/pb"
	digest "github.com/opencontainers/go-digest"
	"google.golang.org/protobuf/encoding/protowire"
)

// held returns a field that holds bytes.
func held(number protowire.Number, data ...[]byte) []byte {
	return protowire.AppendBytes(protowire.AppendTag(nil, number, protowire.BytesType), bytes.Join(data, nil))
}

// counted returns a field with a number, also if that is its default.
func counted(number protowire.Number, value uint64) []byte {
	return protowire.AppendVarint(protowire.AppendTag(nil, number, protowire.VarintType), value)
}

func attribute(key, value string) []byte {
	return held(2, held(2, []byte(value)), held(1, []byte(key)))
}

// oddly returns a source and a file op on it as other libraries may write them, and what BuildKit's library writes of them.
func oddly(t *testing.T, more ...byte) (odd, plain *pb.Definition) {
	t.Helper()
	one := held(3, attribute("local.includepattern", `["a"]`), attribute("local.followpaths", `["b"]`), held(1, []byte("local://a")))
	one = append(one, more...)
	mkdir := held(6, counted(5, 1), counted(3, 0), held(1, []byte("/d")), counted(2, 0o755))
	two := held(4, held(2, counted(1, 0), mkdir, counted(2, 1<<64-1), counted(3, 0)))
	two = append(two, held(1, counted(2, 0), held(1, []byte(digest.FromBytes(one))))...)
	odd = &pb.Definition{Def: [][]byte{one, two, held(1, held(1, []byte(digest.FromBytes(two))))}}
	b := &builder{}
	from := source("a")
	from.GetSource().Attrs = map[string]string{"local.includepattern": `["a"]`, "local.followpaths": `["b"]`}
	action := &pb.FileAction{SecondaryInput: -1, Action: &pb.FileAction_Mkdir{Mkdir: &pb.FileActionMkDir{Path: "/d", Mode: 0o755, Timestamp: 1}}}
	file := b.add(t, &pb.Op{Op: &pb.Op_File{File: &pb.FileOp{Actions: []*pb.FileAction{action}}}}, b.add(t, from))
	b.add(t, &pb.Op{}, file)
	return odd, &b.def
}

func TestWhatAnotherLibraryWritesIsSpelledAsBuildKitsWould(t *testing.T) {
	odd, plain := oddly(t)
	odd.Metadata = map[digest.Digest]pb.OpMetadata{digest.FromBytes(odd.Def[1]): {Description: map[string]string{"a": "b"}}}
	made := Respelled(odd)
	if !slices.EqualFunc(made.Def, plain.Def, bytes.Equal) {
		t.Errorf("%x, not %x", made.Def, plain.Def)
	}
	if named := made.Metadata[digest.FromBytes(plain.Def[1])]; named.Description["a"] != "b" {
		t.Error(made.Metadata)
	}
	if Respelled(plain) != plain {
		t.Error("there was nothing to change")
	}
}

func TestWhatBuildKitsLibraryDoesNotKnowStaysAsItIs(t *testing.T) {
	for what, more := range map[string][]byte{
		"of the op": counted(99, 1), "of the source": held(3, counted(99, 1)), "of an attribute": held(3, held(2, counted(99, 1))), "cut": {0x1a, 1},
	} {
		if odd, _ := oddly(t, more...); Respelled(odd) != odd {
			t.Error(what)
		}
	}
}
