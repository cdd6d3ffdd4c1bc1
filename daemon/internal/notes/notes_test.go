package notes

import (
	"bytes"
	"fmt"
	"os"
	"path/filepath"
	"strings"
	"testing"

	"github.com/moby/buildkit/solver/pb"
	"google.golang.org/protobuf/encoding/protowire"
)

var own = pb.Platform{OS: "linux", Architecture: "amd64"}

func mkfile(timestamp int64) *pb.FileAction {
	return &pb.FileAction{Action: &pb.FileAction_Mkfile{Mkfile: &pb.FileActionMkFile{Path: "/a", Timestamp: timestamp}}}
}

func entryOf(t *testing.T, op *pb.Op) []byte {
	t.Helper()
	entry, err := op.Marshal()
	if err != nil {
		t.Fatal(err)
	}
	return entry
}

// message returns a record with the records of a message.
func message(number protowire.Number, records ...[]byte) []byte {
	return protowire.AppendBytes(protowire.AppendTag(nil, number, protowire.BytesType), bytes.Join(records, nil))
}

func TestFieldsThatTheLibraryLacksAreNoted(t *testing.T) {
	table, err := BuiltIn()
	if err != nil {
		t.Fatal(err)
	}
	exec := message(2, message(1, message(1, []byte("true")), message(12, []byte{3})), message(6, message(1, []byte("vendor/device"))))
	attribute := func(key string) []byte { return message(2, message(1, []byte(key)), message(2, []byte("x"))) }
	source := message(3, message(1, []byte("local://a")), attribute("local.includepattern"), attribute("foo\n"), attribute("local.differ"))
	want := "[ExitCodes has no effect: which statuses of the process are no failure Devices has no effect: devices of the process]"
	if got := fmt.Sprint(table.Of(exec, own)); got != want {
		t.Error(got)
	}
	if got := fmt.Sprint(table.Of(source, own)); got != `[Attribute foo\n has no effect: whatever a newer version of BuildKit does by it]` {
		t.Error(got)
	}
}

func TestFieldsWithoutAnEffectAreNoted(t *testing.T) {
	table, err := BuiltIn()
	if err != nil {
		t.Fatal(err)
	}
	run := &pb.ExecOp{
		Meta: &pb.Meta{Args: []string{"true"}, User: "app"}, Network: pb.NetMode_HOST,
		Mounts: []*pb.Mount{{Dest: "/"}, {Dest: "/t", MountType: pb.MountType_TMPFS, TmpfsOpt: &pb.TmpfsOpt{Size_: 9}}},
	}
	plain := &pb.ExecOp{Meta: &pb.Meta{Args: []string{"true"}}, Mounts: []*pb.Mount{{Dest: "/", TmpfsOpt: &pb.TmpfsOpt{}}}}
	files := &pb.FileOp{Actions: []*pb.FileAction{mkfile(-1), mkfile(0), mkfile(5)}}
	for want, op := range map[string]*pb.Op{
		"User , Network , TmpfsSize mount 1": {Op: &pb.Op_Exec{Exec: run}, Platform: &own},
		"Platform ":                          {Op: &pb.Op_Exec{Exec: plain}, Platform: &pb.Platform{OS: "linux", Architecture: "arm64"}},
		"Timestamp action 2":                 {Op: &pb.Op_File{File: files}},
		"":                                   {Op: &pb.Op_Exec{Exec: plain}, Platform: &own},
	} {
		var got []string
		for _, note := range table.Of(entryOf(t, op), own) {
			got = append(got, note.Name+" "+note.Part)
		}
		if strings.Join(got, ", ") != want {
			t.Errorf("%q, not %q", got, want)
		}
	}
	notes := table.Of(entryOf(t, &pb.Op{Op: &pb.Op_File{File: files}}), own)
	if fmt.Sprint(notes) != "[Timestamp of action 2 has no effect: the time of the file]" {
		t.Error(notes)
	}
}

func TestThatLinksAreFollowedIsNoNote(t *testing.T) {
	table, err := BuiltIn()
	if err != nil {
		t.Fatal(err)
	}
	c := &pb.FileAction{Action: &pb.FileAction_Copy{Copy: &pb.FileActionCopy{Src: "/a", Dest: "/b", FollowSymlink: true}}}
	op := &pb.Op{Op: &pb.Op_File{File: &pb.FileOp{Actions: []*pb.FileAction{c, mkfile(5)}}}}
	if notes := table.Of(entryOf(t, op), own); len(notes) != 1 || notes[0].Name != "Timestamp" {
		t.Error(notes)
	}
}

func TestWithoutATableThereAreNoNotes(t *testing.T) {
	var table *Table
	if notes := table.Of(entryOf(t, &pb.Op{Platform: &pb.Platform{OS: "plan9"}}), own); len(notes) > 0 {
		t.Error(notes)
	}
}

func TestATableThatIsNoneIsRefused(t *testing.T) {
	for _, text := range []string{"", "[]", `{"fields": [{"name": "A", "numbers": ["x"]}]}`, `{"fields": [{"name": "A", "numbers": [[1, 2]]}]}`} {
		path := filepath.Join(t.TempDir(), "fields.json")
		if err := os.WriteFile(path, []byte(text), 0o600); err != nil {
			t.Fatal(err)
		}
		if _, err := Read(path); err == nil {
			t.Errorf("%q was read", text)
		}
	}
}
