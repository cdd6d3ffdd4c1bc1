package replacements

import (
	"context"
	"fmt"
	"slices"
	"strings"

	"github.com/moby/buildkit/solver/pb"
	digest "github.com/opencontainers/go-digest"
	"llbm/daemon/internal/builds"
	"llbm/daemon/internal/graph"
	"llbm/daemon/internal/printable"
	"llbm/daemon/internal/progress"
	"llbm/daemon/internal/standins"
)

// mostOfWords bounds what is shown of an execution's words.
const mostOfWords = 120

// A standIn is what an execution runs in the place of its words: a rule's, or nothing.
type standIn struct {
	rule  *standins.Rule // or nil
	words string         // the words that were sent, for a person
	left  []string       // what is left out of the execution
}

// standIn returns a definition with stand-ins for its executions, by rows. The first rule that fits an execution is used: the client's
// are before the daemon's. With skips, one whose words no rule names and are no script of llbm does nothing.
func (r *Replacer) standIn(ctx context.Context, b *builds.Build, def, sent *pb.Definition) (*pb.Definition, map[int]standIn, error) {
	own := b.StandIns()
	rules, skips := slices.Concat(own.Rules, r.StandIns.Rules), own.Skips || r.StandIns.Skips
	if len(rules) == 0 && !skips {
		return def, nil, nil
	}
	isSkipped := map[digest.Digest]bool{}
	if skips {
		var err error
		if isSkipped, err = noScripts(ctx, b, def); err != nil {
			return nil, nil, err
		}
	}
	before, made := def, map[int]standIn{}
	def, err := graph.Rewrite(def, func(row int, op *pb.Op) (bool, error) {
		exec := op.GetExec()
		if exec.GetMeta() == nil {
			return false, ctx.Err()
		}
		d := digest.FromBytes(sent.Def[row])
		one := standIn{words: shown(exec.Meta.Args)}
		one.rule = standins.For(rules, d.String(), graph.NameOf(sent.Metadata[d]), exec.Meta.Args)
		switch {
		case one.rule != nil && len(one.rule.Words) > 0:
			exec.Meta.Args = slices.Clone(one.rule.Words)
		case one.rule == nil && isSkipped[digest.FromBytes(before.Def[row])]:
			exec.Meta.Args = []string{"true"}
		default:
			return false, nil
		}
		one.left = bare(exec)
		made[row] = one
		return true, nil
	})
	return def, made, err
}

// noScripts returns the entries of executions whose words are no scripts, by their digests.
func noScripts(ctx context.Context, b *builds.Build, def *pb.Definition) (map[digest.Digest]bool, error) {
	entries, err := graph.Entries(def)
	if err != nil {
		return nil, err
	}
	faults, err := b.Shared.Program.Scripts(ctx, entries)
	found := map[digest.Digest]bool{}
	for _, fault := range faults {
		if fault.Row < len(def.Def) {
			found[digest.FromBytes(def.Def[fault.Row])] = true
		}
	}
	return found, err
}

// bare leaves out of an execution what a stand-in has no use for and llbm has not, and returns what that is.
func bare(exec *pb.ExecOp) []string {
	var left []string
	exec.Mounts = slices.DeleteFunc(exec.Mounts, func(m *pb.Mount) bool {
		gone := m.MountType == pb.MountType_SECRET || m.MountType == pb.MountType_SSH
		if gone {
			left = append(left, fmt.Sprintf("%s mount at %s", strings.ToLower(m.MountType.String()), m.Dest))
		}
		return gone
	})
	for _, secret := range exec.Secretenv {
		left = append(left, "secret "+secret.Name)
	}
	exec.Secretenv = nil
	if exec.Network != pb.NetMode_UNSET {
		left = append(left, "network "+strings.ToLower(exec.Network.String()))
		exec.Network = pb.NetMode_UNSET
	}
	if exec.Security != pb.SecurityMode_SANDBOX {
		left = append(left, "security "+strings.ToLower(exec.Security.String()))
		exec.Security = pb.SecurityMode_SANDBOX
	}
	return left
}

// shown returns the words of an execution, for a person.
func shown(args []string) string {
	if len(args) == 3 && args[0] == "/bin/sh" && args[1] == "-c" {
		args = args[2:]
	}
	return printable.Cut(printable.Of(strings.Join(args, " ")), mostOfWords)
}

// Show says of each execution of the graph that another one runs in its place, and warns of each that does nothing.
func (r *Replaced) Show(p *progress.Progress) {
	for v := range p.Graph.Vertices {
		one, ok := r.standIns[p.Graph.Vertices[v].Row]
		if !ok {
			continue
		}
		if one.rule == nil {
			p.Note(v, "this does nothing, as it is no script of llbm: "+one.words, one.left)
			continue
		}
		text := fmt.Sprintf("a stand-in runs, by line %d of the rules: %s", one.rule.Line, shown(one.rule.Words))
		if len(one.left) > 0 {
			text += "; without " + strings.Join(one.left, ", ")
		}
		p.Log(v, 1, text)
	}
}
