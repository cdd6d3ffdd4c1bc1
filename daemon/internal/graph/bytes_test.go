package graph

import (
	"bytes"
	"slices"
	"testing"

	"github.com/moby/buildkit/solver/pb"
	digest "github.com/opencontainers/go-digest"
	"llbm/daemon/internal/records"
)

// message returns a message with bytes in some fields, in this order.
func message(parts ...records.Record) []byte { return records.Message(parts) }

func entryOf(t *testing.T, op *pb.Op) []byte {
	t.Helper()
	entry, err := op.Marshal()
	if err != nil {
		t.Fatal(err)
	}
	return entry
}

func TestWhatNoChangeConcernsStaysInTheBytesOfADefinition(t *testing.T) {
	newer := records.New(99, []byte("a field of a newer client"))
	platform := records.New(10, []byte("\x0a\x05amd64"))
	kept := []byte("what is kept")
	mkdir := &pb.FileActionMkDir{Path: "/a", Mode: 0o1755, Timestamp: -1}
	action := &pb.FileAction{Input: -1, SecondaryInput: -1, Output: 0, Action: &pb.FileAction_Mkdir{Mkdir: mkdir}}
	held, err := mkdir.Marshal()
	if err != nil {
		t.Fatal(err)
	}
	whole, err := (&pb.FileAction{Input: -1, SecondaryInput: -1, Output: 0}).Marshal()
	if err != nil {
		t.Fatal(err)
	}
	old := slices.Concat(whole, records.New(6, slices.Concat(held, newer.Text)).Text, newer.Text)
	file := message(platform, records.New(4, message(records.New(2, old), newer)))
	last := entryOf(t, &pb.Op{Inputs: []*pb.Input{{Digest: digest.FromBytes(file)}}})
	metadata := message(records.New(1, []byte(digest.FromBytes(file).String())), records.New(2, kept))
	data := message(records.New(2, metadata), records.New(1, file), newer, records.New(1, last))

	mkdir.Mode = 0o755
	op := &pb.Op{Op: &pb.Op_File{File: &pb.FileOp{Actions: []*pb.FileAction{action}}}}
	made, linked, err := RewriteBytes(data, map[int]Change{0: {Op: op, Actions: []int{0}}})
	if err != nil || !slices.Equal(linked, []int{1}) {
		t.Fatal(linked, err)
	}
	if count := bytes.Count(made, newer.Text); count != 4 {
		t.Errorf("%d of 4 fields of a newer client are left", count)
	}
	given := records.Of(made)
	entry := given[1].Held
	if given[1].Field != 1 || records.Of(entry)[0].Field != 10 {
		t.Errorf("%q", made)
	}
	name := digest.FromBytes(entry).String()
	if got := records.Last(records.Of(given[0].Held), 1); got != name || !bytes.Contains(given[0].Held, kept) {
		t.Errorf("the metadata are of %s and not of %s", got, name)
	}
	again := &pb.Op{}
	if err := again.Unmarshal(given[3].Held); err != nil || again.Inputs[0].Digest.String() != name {
		t.Error(again, err)
	}
	if err := again.Unmarshal(entry); err != nil || again.GetFile().Actions[0].GetMkdir().Mode != 0o755 {
		t.Error(again, err)
	}
}

func TestWithoutAChangeTheBytesAreTheSame(t *testing.T) {
	data := message(records.New(9, []byte("x")), records.New(1, entryOf(t, source("a"))))
	if made, linked, err := RewriteBytes(data, nil); err != nil || len(linked) > 0 || !bytes.Equal(made, data) {
		t.Errorf("%q %v %v", made, linked, err)
	}
}
