package rules

import (
	"fmt"
	"testing"

	"github.com/moby/buildkit/solver/pb"
	digest "github.com/opencontainers/go-digest"
)

func rmOf(path string) *pb.FileAction {
	return &pb.FileAction{Action: &pb.FileAction_Rm{Rm: &pb.FileActionRm{Path: path}}}
}

func TestWhatKillsBuildKitsDaemonIsSaidWithoutTrees(t *testing.T) {
	root := []*pb.Mount{{Dest: "/"}}
	one, two := []*pb.Input{{Digest: "a"}}, []*pb.Input{{Digest: "a"}, {Digest: "b"}}
	for want, op := range map[string]*pb.Op{
		"":                         {Inputs: two, Op: &pb.Op_Merge{Merge: &pb.MergeOp{Inputs: []*pb.MergeInput{{Input: 0}, {Input: 1}}}}},
		"-1 Execution ":            {Op: &pb.Op_Exec{Exec: &pb.ExecOp{Mounts: root}}},
		"-1 Execution -1 Refused ": {Op: &pb.Op_Exec{Exec: &pb.ExecOp{Mounts: root, Security: pb.SecurityMode_INSECURE}}},
		"-1 SourceInputs ":         {Inputs: one, Op: &pb.Op_Source{Source: &pb.SourceOp{}}},
		"-1 ShortMerge ":           {Inputs: two, Op: &pb.Op_Merge{Merge: &pb.MergeOp{Inputs: []*pb.MergeInput{{Input: 1}}}}},
		"1 RmAboveRoot 3 RmAboveRoot ": {Op: &pb.Op_File{File: &pb.FileOp{Actions: []*pb.FileAction{
			rmOf("/.."), rmOf(".."), rmOf("a/.."), rmOf("a/../.."), rmOf("../a"),
		}}}},
	} {
		got := ""
		for _, step := range Static(op) {
			got += fmt.Sprint(step.Action, " ", step.Lines[0].Notes[0], " ")
		}
		if got != want {
			t.Errorf("%q, not %q", got, want)
		}
	}
}

func TestInputsThatNameNoEntryAreSaid(t *testing.T) {
	entry, err := (&pb.Op{Op: &pb.Op_Source{Source: &pb.SourceOp{Identifier: "local://a"}}}).Marshal()
	if err != nil {
		t.Fatal(err)
	}
	last, err := (&pb.Op{Inputs: []*pb.Input{{Digest: digest.FromBytes(entry)}, {Digest: digest.FromString("none")}}}).Marshal()
	if err != nil {
		t.Fatal(err)
	}
	lines := UnknownInputs(&pb.Definition{Def: [][]byte{entry, last}})
	if len(lines) != 1 || lines[0].String() != "entry 1 input 1: its daemon dies (here takes it): UnknownInput" {
		t.Error(lines)
	}
}
