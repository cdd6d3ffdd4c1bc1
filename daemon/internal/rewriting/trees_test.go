package rewriting

import (
	"bytes"
	"context"
	"fmt"
	"math/rand"
	"os"
	"os/exec"
	"path/filepath"
	"slices"
	"strings"
	"testing"

	"github.com/moby/buildkit/solver/pb"
	digest "github.com/opencontainers/go-digest"
	"llbm/daemon/internal/cases"
	"llbm/daemon/internal/graph"
	"llbm/daemon/internal/rules"
)

// A builder makes a definition.
type builder struct {
	t   *testing.T
	def *pb.Definition
}

func (b *builder) add(op *pb.Op) digest.Digest {
	b.t.Helper()
	entry, err := op.Marshal()
	if err != nil {
		b.t.Fatal(err)
	}
	b.def.Def = append(b.def.Def, entry)
	return digest.FromBytes(entry)
}

// definition returns a definition of local sources and of ops; each op names as its inputs the sources and the ops before.
func definition(t *testing.T, sources int, ops ...func(inputs []*pb.Input) *pb.Op) *pb.Definition {
	t.Helper()
	b := &builder{t, &pb.Definition{}}
	var inputs []*pb.Input
	for i := range sources {
		source := &pb.SourceOp{Identifier: fmt.Sprintf("local://s%d", i)}
		inputs = append(inputs, &pb.Input{Digest: b.add(&pb.Op{Op: &pb.Op_Source{Source: source}})})
	}
	for _, one := range ops {
		inputs = append(inputs, &pb.Input{Digest: b.add(one(inputs))})
	}
	b.add(&pb.Op{Inputs: inputs[len(inputs)-1:]})
	return b.def
}

// given has the trees of sources by their order.
type given []*rules.Node

func (g given) Source(_ context.Context, v *graph.Vertex) (here, there *rules.Node, err error) {
	number := 0
	if _, err := fmt.Sscanf(v.Op.GetSource().Identifier, "local://s%d", &number); err != nil {
		return nil, nil, err
	}
	return g[number], g[number], nil
}

// run does a definition of sources, file ops and merges by some rules, and returns the result, nil if it fails.
func run(t *testing.T, def *pb.Definition, trees []*rules.Node, like rules.Rules) *rules.Ref {
	t.Helper()
	g, err := graph.Read(def, def)
	if err != nil {
		t.Fatal(err)
	}
	outputs := make([][]*rules.Ref, len(g.Vertices))
	for v := range g.Vertices {
		var inputs []*rules.Ref
		for i, input := range g.Vertices[v].Inputs {
			inputs = append(inputs, outputs[input][g.Vertices[v].Op.Inputs[i].Index])
		}
		one, err := do(t, g, v, inputs, trees, like)
		if err != nil {
			return nil
		}
		outputs[v] = one
	}
	return outputs[g.Result][g.Output]
}

func do(t *testing.T, g *graph.Graph, v int, inputs []*rules.Ref, trees []*rules.Node, like rules.Rules) ([]*rules.Ref, error) {
	t.Helper()
	op := g.Vertices[v].Op
	switch {
	case op.GetSource() != nil:
		here, _, err := given(trees).Source(context.Background(), &g.Vertices[v])
		return []*rules.Ref{rules.Based(here)}, err
	case op.GetFile() != nil:
		return rules.FileOp(context.Background(), op.GetFile(), inputs, like)
	}
	one, err := rules.Merge(context.Background(), op.GetMerge(), inputs, like)
	return []*rules.Ref{one}, err
}

// rewritten returns a definition rewritten by its trees.
func rewritten(t *testing.T, def *pb.Definition, trees []*rules.Node) (*pb.Definition, Rows) {
	t.Helper()
	new, rows, err := Definition(context.Background(), def, given(trees))
	if err != nil {
		t.Fatal(err)
	}
	return new, rows
}

// isSameResult is whether two results are equal, but for their roots' own entries.
func isSameResult(a, b *rules.Ref) bool {
	if a == nil || b == nil {
		return a == b
	}
	return rules.EqualBelow(a.Tree(), b.Tree())
}

// hasOddName is whether a text of a definition has a control byte, which no name of llbm has.
func hasOddName(def *pb.Definition) bool {
	return slices.ContainsFunc(def.Def, func(entry []byte) bool { return bytes.Contains(entry, []byte(oddName)) })
}

// judge compares what BuildKit makes of a definition with what both make of it once it is rewritten by its trees.
func judge(t *testing.T, number int, def *pb.Definition, trees []*rules.Node) (isRewritten, differs bool) {
	t.Helper()
	new, rows := rewritten(t, def, trees)
	before, here, after := run(t, def, trees, rules.All), run(t, new, trees, rules.None), run(t, new, trees, rules.All)
	describe := func() string {
		var text strings.Builder
		for row, entry := range def.Def {
			one := &pb.Op{}
			if err := one.Unmarshal(entry); err != nil {
				t.Fatal(err)
			}
			fmt.Fprintf(&text, "\n%d %v %v", row, one.Op, rows[row])
		}
		if before != nil && here != nil {
			lines, err := rules.Differences(context.Background(), before.Tree(), here.Tree(), 9)
			fmt.Fprintf(&text, "\n%v %v", lines, err)
		}
		return text.String()
	}
	if !isSameResult(before, after) {
		t.Errorf("case %d: BuildKit makes another tree: %s", number, describe())
	}
	if isSameResult(before, here) {
		return len(rows) > 0, false
	}
	if !hasOddName(def) {
		t.Errorf("case %d: llbm makes another tree: %s", number, describe())
	}
	return len(rows) > 0, true
}

func TestByTreesASingleActionEndsAsInBuildKit(t *testing.T) {
	random := rand.New(rand.NewSource(2))
	different, changed := 0, 0
	for number := range cases.Of(3_000) {
		trees := []*rules.Node{randomTree(random), randomTree(random)}
		action := randomAction(random, number%2 == 0, trees[0], trees[1])
		def := definition(t, 2, func(inputs []*pb.Input) *pb.Op {
			return &pb.Op{Op: &pb.Op_File{File: &pb.FileOp{Actions: []*pb.FileAction{action}}}, Inputs: inputs}
		})
		isRewritten, differs := judge(t, number, def, trees)
		if isRewritten {
			changed++
		}
		if differs {
			different++
		}
	}
	t.Logf("%d rewritten, %d different by names that llbm does not take", changed, different)
}

// randomOp returns a file op with several actions, or a merge.
func randomOp(random *rand.Rand, inputs []*pb.Input, plain bool, trees []*rules.Node) *pb.Op {
	made := &pb.Op{}
	for n := 1 + random.Intn(3); n > 0; n-- {
		made.Inputs = append(made.Inputs, pick(random, inputs...))
	}
	count := len(made.Inputs)
	index := func(most int) pb.InputIndex { return pb.InputIndex(random.Intn(most+1) - 1) }
	if random.Intn(3) == 0 {
		merge := &pb.MergeOp{}
		for i := range count + random.Intn(2) {
			if one := pb.InputIndex(i); random.Intn(3) > 0 && i < count {
				merge.Inputs = append(merge.Inputs, &pb.MergeInput{Input: one})
			} else {
				merge.Inputs = append(merge.Inputs, &pb.MergeInput{Input: index(count)})
			}
		}
		made.Op = &pb.Op_Merge{Merge: merge}
		return made
	}
	made.Op = &pb.Op_File{File: &pb.FileOp{Actions: randomActions(random, count, plain, trees)}}
	return made
}

// randomDefinition returns a definition of several ops, of which few fail in BuildKit.
func randomDefinition(t *testing.T, random *rand.Rand, trees []*rules.Node, plain bool) *pb.Definition {
	t.Helper()
	var def *pb.Definition
	var ops []func([]*pb.Input) *pb.Op
	for n := 1 + random.Intn(4); n > 0; n-- {
		for try := random.Intn(8); ; try-- {
			seed := random.Int63()
			more := append(slices.Clip(ops), func(inputs []*pb.Input) *pb.Op { return randomOp(rand.New(rand.NewSource(seed)), inputs, plain, trees) })
			def = definition(t, len(trees), more...)
			if try <= 0 || run(t, def, trees, rules.All) != nil {
				ops = more
				break
			}
		}
	}
	return def
}

func TestByTreesADefinitionEndsAsInBuildKit(t *testing.T) {
	random := rand.New(rand.NewSource(3))
	different, changed, failed := 0, 0, 0
	for number := range cases.Of(1_000) {
		trees := []*rules.Node{randomTree(random), randomTree(random)}
		def := randomDefinition(t, random, trees, number%2 == 0)
		isRewritten, differs := judge(t, number, def, trees)
		if isRewritten {
			changed++
		}
		if differs {
			different++
		}
		if run(t, def, trees, rules.All) == nil {
			failed++
		}
	}
	t.Logf("%d rewritten, %d different by names that llbm does not take, %d fail", changed, different, failed)
}

// program returns llbm, or skips the test: the one that LLBM names, or one of the repository.
func program(t *testing.T) string {
	t.Helper()
	working, err := os.Getwd()
	if err == nil {
		working, err = filepath.EvalSymlinks(working) // it may be below a link
	}
	if err != nil {
		t.Fatal(err)
	}
	for _, path := range []string{os.Getenv("LLBM"), working + "/../../../crates/llbm/out/llbm", working + "/../../../out/llbm-unproved"} {
		if _, err := os.Stat(path); path != "" && err == nil {
			return path
		}
	}
	t.Skip("llbm is not there: set LLBM, or make out/llbm-unproved")
	return ""
}

// byProgram returns what llbm itself makes of a definition, nil if it fails.
func byProgram(t *testing.T, program string, def *pb.Definition, trees []*rules.Node) *rules.Node {
	t.Helper()
	data, err := def.Marshal()
	if err != nil {
		t.Fatal(err)
	}
	words := []string{"run"}
	for i, one := range trees {
		var text bytes.Buffer
		if err := one.Tree().Write(&text); err != nil {
			t.Fatal(err)
		}
		file := filepath.Join(t.TempDir(), "tree")
		if err := os.WriteFile(file, text.Bytes(), 0o600); err != nil {
			t.Fatal(err)
		}
		words = append(words, fmt.Sprintf("s%d=%s", i, file))
	}
	cmd := exec.Command(program, words...)
	cmd.Stdin = bytes.NewReader(data)
	out, err := cmd.Output()
	if err != nil {
		return nil
	}
	n, err := rules.Read(context.Background(), bytes.NewReader(out), nil)
	if err != nil {
		t.Fatal(err)
	}
	return n
}

func TestByTreesWhatLlbmItselfMakesIsBuildKits(t *testing.T) {
	llbm, random := program(t), rand.New(rand.NewSource(6))
	for number := range cases.Of(100) {
		trees := []*rules.Node{randomTree(random), randomTree(random)}
		def := randomDefinition(t, random, trees, number%2 == 0)
		new, rows := rewritten(t, def, trees)
		want, got := run(t, def, trees, rules.All), byProgram(t, llbm, new, trees)
		if isSame := want == nil && got == nil || want != nil && got != nil && rules.EqualBelow(want.Tree(), got); !isSame && !hasOddName(def) {
			t.Errorf("case %d: %v: %v and %v", number, rows, want, got)
		}
	}
}
