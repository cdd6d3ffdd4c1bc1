package inputs

import (
	"iter"

	"llbm/daemon/internal/gathering"
	"llbm/daemon/internal/graph"
	"llbm/daemon/internal/rules"
)

// Times returns the files of the sources that a merge of BuildKit can take for others, by the row and the path: those of which
// another file has the size and the time. If a copy sets a time, these are all files. A graph without a merge needs none.
func (in *Inputs) Times(g *graph.Graph) map[int]map[string]rules.Time {
	hasMerge, setsTime, count := false, false, map[rules.Time]int{}
	for v := range g.Vertices {
		op := g.Vertices[v].Op
		hasMerge, setsTime = hasMerge || op.GetMerge() != nil, setsTime || rules.SetsTime(op)
		for _, action := range op.GetFile().GetActions() {
			if made := action.GetMkfile(); made != nil {
				count[rules.Time{Size: int64(len(made.Data)), At: made.Timestamp}]++
			}
		}
	}
	if !hasMerge {
		return nil
	}
	for _, source := range in.gathered.All {
		for _, one := range files(source) {
			count[one]++
		}
	}
	found := map[int]map[string]rules.Time{}
	for _, source := range in.gathered.All {
		times := map[string]rules.Time{}
		for path, one := range files(source) {
			if setsTime || count[one] > 1 && !rules.IsWhole(one.At) {
				times[path] = one
			}
		}
		for _, v := range source.Vertices {
			found[g.Vertices[v].Place] = times
		}
	}
	return found
}

// files yields the path, the size and the time of each file that is not empty.
func files(one *gathering.Input) iter.Seq2[string, rules.Time] {
	return func(yield func(string, rules.Time) bool) {
		for i := range one.Manifest.Entries {
			e := &one.Manifest.Entries[i]
			if !e.Dir && e.Content.Size > 0 && !yield(e.Path, rules.Time{Size: e.Content.Size, At: e.Modified}) {
				return
			}
		}
	}
}
