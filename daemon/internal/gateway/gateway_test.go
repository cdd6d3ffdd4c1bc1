package gateway

import (
	"context"
	"testing"

	gatewaypb "github.com/moby/buildkit/frontend/gateway/pb"
	"github.com/moby/buildkit/solver/pb"
	"google.golang.org/grpc/codes"
	"google.golang.org/grpc/status"
	"llbm/daemon/internal/builds"
	"llbm/daemon/internal/results"
	"llbm/daemon/internal/solver"
	"llbm/daemon/internal/tree"
)

func TestResultsThatAreNotSolvedAreBoundedInBytes(t *testing.T) {
	b, err := builds.New(1).Start(context.Background(), 0, "ref", "")
	if err != nil {
		t.Fatal(err)
	}
	g, _ := (&Gateway{Solver: &solver.Solver{}}).For(b, Frontend{})
	asked := &gatewaypb.SolveRequest{Definition: &pb.Definition{Def: [][]byte{make([]byte, 60<<20)}}}
	for n := range 5 {
		_, err := g.Solve(context.Background(), asked)
		if want := map[bool]codes.Code{true: codes.ResourceExhausted}[n == 4]; status.Code(err) != want {
			t.Fatal(n, err)
		}
	}
}

func TestAFileIsReadUpToABound(t *testing.T) {
	b, err := builds.New(1).Start(context.Background(), 0, "ref", "")
	if err != nil {
		t.Fatal(err)
	}
	text := make([]byte, mostOfFile+1)
	text[mostOfFile] = 'x'
	held := results.Lazily("id", nil, func() (*results.Result, error) {
		return &results.Result{Tree: tree.Tree{{Dir: true}, {Path: "f", Content: text}}}, nil
	})
	if err := b.AddResult(held); err != nil {
		t.Fatal(err)
	}
	g, _ := (&Gateway{}).For(b, Frontend{})
	for _, c := range []struct {
		part *gatewaypb.FileRange
		size int
		code codes.Code
	}{
		{nil, 0, codes.ResourceExhausted},
		{&gatewaypb.FileRange{Offset: 1}, mostOfFile, codes.OK},
		{&gatewaypb.FileRange{Length: 5}, 5, codes.OK},
		{&gatewaypb.FileRange{Offset: mostOfFile, Length: 9}, 1, codes.OK},
		{&gatewaypb.FileRange{Offset: 1 << 40, Length: 9}, 0, codes.OK},
		{&gatewaypb.FileRange{Length: mostOfFile + 1}, 0, codes.ResourceExhausted},
	} {
		got, err := g.ReadFile(context.Background(), &gatewaypb.ReadFileRequest{Ref: "id", FilePath: "/f", Range: c.part})
		if status.Code(err) != c.code || len(got.GetData()) != c.size {
			t.Errorf("%v: %d bytes %v", c.part, len(got.GetData()), err)
		}
	}
	if err := b.Hold(256 << 20); err != nil {
		t.Error("what was read is held on:", err)
	}
}
