package rewriting

import (
	"github.com/moby/buildkit/solver/pb"
	"llbm/daemon/internal/rules"
	"llbm/daemon/internal/views"
)

// exec names in an execution the paths to which links lead, where the trees of its mounts are known: of its mounts, its working directory
// and its calls.
func (w *writer) exec(v int) {
	it := &w.graph.Vertices[v]
	known, hasLinks := w.someInputs(v), false
	for _, tree := range known {
		hasLinks = hasLinks || tree.HasLinks()
	}
	if !hasLinks {
		return
	}
	run, ways := views.Resolve(it.Op.GetExec(), func(mount *pb.Mount) *rules.Node { return known[pb.InputIndex(mount.Input)] })
	if run == it.Op.GetExec() {
		return
	}
	var changes []string
	for _, one := range ways {
		changes = append(changes, one.What+quoted(one.Path)+" is "+quoted(one.To))
	}
	op := *it.Op
	op.Op = &pb.Op_Exec{Exec: run}
	w.set(it.Row, &op, Row{Changes: changes})
}
