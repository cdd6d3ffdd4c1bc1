package comparison

import (
	"fmt"
	"strings"
	"testing"

	"github.com/moby/buildkit/solver/pb"
	"llbm/daemon/internal/persistent"
)

// A hostile is a definition that is small, and makes much of what it works on.
type hostile struct {
	name    string
	made    func(t testing.TB, d *definition) int
	sources map[string]string
	most    int64 // how many nodes of trees are made at most
}

// nested returns merges on merges, each of which has its input some times.
func nested(depth, times int) func(testing.TB, *definition) int {
	return func(t testing.TB, d *definition) int {
		last := d.add(t, file(0, mkfileOn(-1, "/a", "1")))
		for range depth {
			inputs := make([]int, times)
			for i := range inputs {
				inputs[i] = last
			}
			last = d.add(t, merge(times), inputs...)
		}
		return last
	}
}

func mkfileOn(input pb.InputIndex, path, content string) *pb.FileAction {
	one := mkfile(path, 0o644, content)
	one.Input = input
	return one
}

// doubled returns ops that copy their tree twice into itself.
func doubled(times int, owner *pb.ChownOpt) func(testing.TB, *definition) int {
	return func(t testing.TB, d *definition) int {
		last := d.add(t, file(1, mkfile("/f", 0o755, "1")), d.add(t, source("s")))
		for range times {
			one, two := copied(0, "/", "/x"), copied(0, "/", "/y")
			one.GetCopy().Owner, two.GetCopy().Owner = owner, owner
			empty := mkdir("/z")
			empty.Input = -1
			last = d.add(t, file(1, empty, one, two), last)
		}
		return last
	}
}

// many is the text of a tree with some files.
func many(count int) string {
	var text strings.Builder
	text.WriteString("d 0755 0 0 /\n")
	for i := range count {
		fmt.Fprintf(&text, "f 0644 0 0 %08x /%06d\n", i, i)
	}
	return text.String()
}

// chained returns a chain of ops over a source, each of which writes a file of its own over one that is there.
func chained(vertices, files int) func(testing.TB, *definition) int {
	return func(t testing.TB, d *definition) int {
		last := d.add(t, source("s"))
		for i := range vertices {
			last = d.add(t, file(1, mkfile(fmt.Sprintf("/%06d", i%files), 0o755, fmt.Sprint(i))), last)
		}
		return last
	}
}

// distinct returns ops that each write two files which differ in BuildKit, and copy all that is there.
func distinct(ops int) func(testing.TB, *definition) int {
	return func(t testing.TB, d *definition) int {
		last := d.add(t, source("s"))
		for i := range ops {
			last = d.add(t, file(1, mkfile(fmt.Sprintf("/%06d", 2*i), 0o755, "x"), mkfile(fmt.Sprintf("/%06d", 2*i+1), 0o1755, "y"), copied(0, "/000000", "/n")), last)
		}
		return last
	}
}

// What is made grows with the definition and the trees, and not with their product; and lines are few.
func TestHostileDefinitionsCostLittle(t *testing.T) {
	small := map[string]string{"s": "d 0755 0 0 /\nf 0604 0 0 31 /f\n"}
	large := map[string]string{"s": many(2000)}
	owner := &pb.ChownOpt{User: &pb.UserOpt{User: &pb.UserOpt_ByID{ByID: 7}}}
	for _, one := range []hostile{
		{"three nested merges of 1,000 inputs", nested(3, 1000), nil, 10_000},
		{"four nested merges of 100 inputs", nested(4, 100), nil, 10_000},
		{"20 copies of a tree twice into itself", doubled(20, nil), small, 100_000},
		{"40 copies of a tree twice into itself", doubled(40, nil), small, 200_000},
		{"40 copies with an owner", doubled(40, owner), small, 2_000_000},
		{"a chain of 2,000 over 2,000 files", chained(2000, 2000), large, 1_000_000},
		{"2,000 files in 1,000 ops", distinct(1000), large, 1_000_000},
	} {
		for _, rewrites := range []bool{false, true} {
			d := &definition{}
			request := &Request{Received: true, Rewrite: rewrites, Sent: written(t, "sent", d.bytes(t, one.made(t, d))), Sources: map[string]string{}}
			for name, text := range one.sources {
				request.Sources[name] = written(t, name, []byte(text))
			}
			start := persistent.Made()
			found, err := compared(t, request)
			endOf(t, found, err)
			count := 0
			for _, m := range found {
				count += len(linesOf(m))
			}
			made := persistent.Made() - start
			t.Logf("%s, rewritten %t: %d nodes, %d lines", one.name, rewrites, made, count)
			if made > one.most || count > 60*len(d.entries) {
				t.Errorf("%s, rewritten %t: %d nodes are made, and %d lines", one.name, rewrites, made, count)
			}
		}
	}
}
