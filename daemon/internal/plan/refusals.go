package plan

import (
	"github.com/moby/buildkit/solver/pb"
	"llbm/daemon/internal/machine"
	"llbm/daemon/internal/printable"
	"llbm/daemon/internal/rules"
	"llbm/daemon/internal/sources"
	"llbm/daemon/internal/standins"
)

// beyond is what can be done about what an action has that llbm does not take.
var beyond = map[string]string{
	rules.ByName:   "the numbers of an owner are looked up only in a tree that is known before an execution runs: give the owner as numbers",
	rules.Unpacked: "an archive is unpacked only from a local source or an image, to a place that is made: unpack it before, or use COPY",
	rules.Filtered: "patterns are taken only of a tree that is known before an execution runs: copy from the context, or without them",
}

// said returns what is wrong with an op that llbm refuses, where its line does not say it, and on a second line what can be done.
func said(refusal *machine.Refusal, op *pb.Op) string {
	for _, action := range op.GetFile().GetActions() {
		if advice := beyond[rules.Beyond(action)]; advice != "" {
			return "\n" + advice
		}
	}
	if source := op.GetSource(); source != nil && !sources.IsLocal(source) {
		return "\n" + sources.Instead(source.Identifier)
	}
	if refusal.Script != nil && op.GetExec() != nil {
		return ": " + printable.Of(standins.Words(*refusal.Script, op.GetExec())) + "\n" + standins.Advice
	}
	return ""
}
