package machine

import (
	"bytes"
	"context"
	"io"
	"os"
	"path/filepath"
	"strings"
	"sync/atomic"
	"testing"

	"github.com/moby/buildkit/client/llb"
	"github.com/moby/buildkit/solver/pb"
)

// ran runs an execution that writes a file to its end, with a bound on what is written.
func ran(t *testing.T, most int64) *Run {
	t.Helper()
	path := os.Getenv("LLBM")
	if path == "" {
		t.Skip("llbm is not there: set LLBM")
	}
	ctx := context.Background()
	program, err := Find(ctx, path, Limits{Output: most})
	if err != nil {
		t.Fatal(err)
	}
	sent, err := llb.Scratch().Run(llb.Args([]string{"write", "/f", "some-text"}), llb.Dir("/")).Root().Marshal(ctx)
	if err != nil {
		t.Fatal(err)
	}
	data, err := (&pb.Definition{Def: sent.Def}).Marshal()
	if err != nil {
		t.Fatal(err)
	}
	file, err := InMemory("definition")
	if err == nil {
		_, err = file.Write(data)
	}
	if err != nil {
		t.Fatal(err)
	}
	t.Cleanup(func() { _ = file.Close() })
	run, err := program.Step(ctx, file, nil, 1, new(atomic.Int64))
	if err != nil {
		t.Fatal(err)
	}
	t.Cleanup(run.Stop)
	for more := true; more; {
		if _, more, err = run.Next(); err != nil {
			t.Fatal(err)
		}
	}
	return run
}

func TestATreeThatIsReadAsideIsNoOutput(t *testing.T) {
	run := ran(t, 500)
	for range 10 {
		var text bytes.Buffer
		size, err := run.Aside(0, 0, 1000, &text)
		if err != nil || size != text.Len() || size < 40 || !strings.HasSuffix(text.String(), " /f\n") {
			t.Fatal(text.String(), size, err)
		}
	}
	if size, err := run.Aside(0, 1, 1000, io.Discard); size != 0 || err != nil {
		t.Error(size, err)
	}
	if tree, err := run.Tree(0, 0); err != nil || len(tree) != 2 {
		t.Error(tree, err)
	}
}

func TestATreeThatIsReadAsideIsBounded(t *testing.T) {
	run := ran(t, 1000)
	if size, err := run.Aside(0, 0, 30, io.Discard); err == nil {
		t.Error(size)
	}
}

func TestAProgramMayBeNamedFromHere(t *testing.T) {
	path := os.Getenv("LLBM")
	if path == "" {
		t.Skip("llbm is not there: set LLBM")
	}
	t.Chdir(filepath.Dir(path))
	program, err := Find(context.Background(), "./"+filepath.Base(path), Limits{})
	if err != nil {
		t.Fatal(err)
	}
	if _, err := program.show(context.Background(), nil, 0); err == nil || !strings.Contains(err.Error(), "fault ") {
		t.Error(err)
	}
}
