package results

import (
	"context"
	"errors"
	"strings"
	"sync"
	"sync/atomic"
	"testing"

	"github.com/moby/buildkit/client/llb"
	"google.golang.org/grpc/codes"
	"google.golang.org/grpc/status"
	"llbm/daemon/internal/tree"
)

func TestAResultIsSolvedOnce(t *testing.T) {
	var solved atomic.Int64
	want := errors.New("so it is")
	l := Lazily("id", nil, func() (*Result, error) {
		solved.Add(1)
		return nil, want
	})
	var all sync.WaitGroup
	for range 10 {
		all.Add(1)
		go func() {
			defer all.Done()
			if _, err := l.Result(context.Background()); err != want {
				t.Error(err)
			}
		}()
	}
	all.Wait()
	if solved.Load() != 1 {
		t.Error(solved.Load())
	}
}

func TestWhoNoLongerWaitsLeavesTheResultToOthers(t *testing.T) {
	goOn := make(chan struct{})
	l := Lazily("id", nil, func() (*Result, error) {
		<-goOn
		return &Result{Tree: tree.Empty()}, nil
	})
	ctx, cancel := context.WithCancel(context.Background())
	cancel()
	if _, err := l.Result(ctx); status.Code(err) != codes.Canceled {
		t.Error(err)
	}
	close(goOn)
	if result, err := l.Result(context.Background()); err != nil || len(result.Tree) != 1 {
		t.Error(result, err)
	}
}

func TestAPanicIsTheErrorOfItsResult(t *testing.T) {
	l := Lazily("id", nil, func() (*Result, error) { panic("no") })
	if _, err := l.Result(context.Background()); status.Code(err) != codes.Internal || !strings.HasSuffix(err.Error(), "solving: no") {
		t.Error(err)
	}
}

func TestOpsThatChangeFilesAreCounted(t *testing.T) {
	run := llb.Local("a").Run(llb.Args([]string{"true"})).Root()
	state := llb.Merge([]llb.State{run, llb.Scratch().File(llb.Mkfile("/a", 0o600, nil))})
	def, err := state.Marshal(context.Background())
	if err != nil {
		t.Fatal(err)
	}
	if count := (&Result{Def: def.ToPB()}).Ops(); count != 2 {
		t.Error(count)
	}
	if count := (&Result{}).Ops(); count != 0 {
		t.Error(count)
	}
}
