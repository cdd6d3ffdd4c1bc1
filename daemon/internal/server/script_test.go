package server

import (
	"os"
	"path/filepath"
	"slices"
	"strings"
	"testing"

	"github.com/moby/buildkit/client"
	"github.com/moby/buildkit/client/llb"
	"github.com/moby/buildkit/solver/pb"
	digest "github.com/opencontainers/go-digest"
	"google.golang.org/grpc/codes"
	"google.golang.org/grpc/status"
)

// stub is a program for one definition, whose entry has a digest. It reads no definition but that of a session, and does not end by
// itself.
const stub = `#!/bin/sh
case $1 in
--version) echo llbm 1.0 ;;
step)
	event=0
	while read command vertex output; do
		case $command in
		graph) printf '0 file steps 1 outputs 1 inputs -\nresult 0.0\n' ;;
		digests) echo 0 DIGEST ;;
		tree) printf 'd 0755 0 0 /\nf 0644 0 0 6869 /a\n' ;;
		next)
			event=$((event + 1))
			case $event in
			1) echo '1 claim 0 0 -> file 1' ;;
			2) echo '2 step 0 -> acted 0' ;;
			3) echo '3 settle 0 -> 0 done' ;;
			*) echo end ;;
			esac ;;
		esac
		echo
	done
	exec sleep 100000 ;;
esac
exit 1
`

// stubbed solves a definition by the stub, which names a vertex of it.
func stubbed(t *testing.T, state llb.State, named digest.Digest) (string, error) {
	t.Helper()
	path := filepath.Join(t.TempDir(), "llbm")
	if err := os.WriteFile(path, []byte(strings.Replace(stub, "DIGEST", named.String(), 1)), 0o700); err != nil {
		t.Fatal(err)
	}
	d := started(t, func(o *Options) { o.Program, o.AtOnce = path, 1 })
	return d.solved(t, state, client.SolveOpt{})
}

func TestADefinitionIsReadByItsSessionAloneAndNobodyWaitsForTheEnd(t *testing.T) {
	state := llb.Scratch().File(llb.Mkfile("/a", 0o644, []byte("hi")))
	got, err := stubbed(t, state, digest.FromBytes(marshal(t, state).Def[0]))
	if err != nil || !strings.Contains(got, `0:0 a "hi"`) {
		t.Errorf("%s %v", got, err)
	}
}

func TestAnotherGraphThanTheClientsIsRefused(t *testing.T) {
	state := llb.Scratch().File(llb.Mkfile("/a", 0o644, []byte("hi")))
	if got, err := stubbed(t, state, digest.FromString("another")); err == nil || !strings.Contains(err.Error(), "llbm has another vertex 0") {
		t.Errorf("%s %v", got, err)
	}
}

// An entry that comes first has the least number, whatever the result names first.
func TestVerticesHaveTheNumbersOfTheSession(t *testing.T) {
	d := started(t, nil)
	base := llb.Scratch().File(llb.Mkfile("/base", 0o644, []byte("x")))
	for path, want := range map[string]string{"/base": "", "/none": "llbm: failed 2 action 0 fault 21 NotFound"} {
		removed := base.File(llb.Rm(path)).File(llb.Mkfile("/left", 0o644, []byte("y")))
		def := marshal(t, llb.Merge([]llb.State{removed, base.File(llb.Mkfile("/right", 0o644, []byte("z")))}))
		first := len(def.Def) - 3 // the file of the right input, which is the only one of its kind that no entry before the merge names
		def.Def = slices.Insert(slices.Delete(slices.Clone(def.Def), first, first+1), 0, def.Def[first])
		var archive buffer
		_, err := d.Solve(t.Context(), def, client.SolveOpt{Exports: []client.ExportEntry{toTar("tar", &archive, nil)}}, nil)
		if want != "" {
			if err == nil || !strings.Contains(err.Error(), want) {
				t.Errorf("%s: %v", path, err)
			}
			continue
		}
		if got := listed(t, archive.Bytes()); err != nil || !strings.Contains(got, `left "y"`) || !strings.Contains(got, `right "z"`) {
			t.Errorf("%s: %s %v", path, got, err)
		}
	}
}

func TestADefinitionThatNamesWhatItHasNotIsRefusedByLlbm(t *testing.T) {
	d := started(t, nil)
	for _, op := range []*pb.Op{
		{Op: &pb.Op_Merge{Merge: &pb.MergeOp{Inputs: []*pb.MergeInput{{Input: 5}}}}, Inputs: make([]*pb.Input, 2)},
		{Op: &pb.Op_File{File: &pb.FileOp{Actions: []*pb.FileAction{{
			Input: 7, SecondaryInput: -1, Action: &pb.FileAction_Copy{Copy: &pb.FileActionCopy{Src: "/", Dest: "/a/", DirCopyContents: true}},
		}}}}},
	} {
		base, err := (&pb.Op{Op: &pb.Op_Merge{Merge: &pb.MergeOp{Inputs: []*pb.MergeInput{{Input: -1}, {Input: -1}}}}}).Marshal()
		if err != nil {
			t.Fatal(err)
		}
		for i := range op.Inputs {
			op.Inputs[i] = &pb.Input{Digest: digest.FromBytes(base)}
		}
		entry, err := op.Marshal()
		if err != nil {
			t.Fatal(err)
		}
		last, err := (&pb.Op{Inputs: []*pb.Input{{Digest: digest.FromBytes(entry)}}}).Marshal()
		if err != nil {
			t.Fatal(err)
		}
		def := &llb.Definition{Def: [][]byte{base, entry, last}}
		_, err = d.Solve(t.Context(), def, client.SolveOpt{}, nil)
		if st, _ := status.FromError(err); st.Code() != codes.InvalidArgument || !strings.Contains(st.Message(), "fault 89 1") {
			t.Errorf("%v", err)
		}
	}
}
