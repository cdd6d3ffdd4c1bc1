package views

import (
	"fmt"
	"slices"
	"strings"

	"github.com/moby/buildkit/solver/pb"
	"llbm/daemon/internal/paths"
	"llbm/daemon/internal/rules"
	"llbm/daemon/internal/standins"
)

// A Way is a path of an execution that leads through a symbolic link, or to one that is followed.
type Way struct {
	What string // what the path is of, as `mount 1: the selector`
	Path string
	Link string // "" if none is known by its path
	To   string // where it leads; "" if this can't be said, or not be written
}

// A resolver replaces paths of an execution, which is its own copy.
type resolver struct {
	exec *pb.ExecOp
	view view
	ways []Way
}

// Resolve returns an execution whose paths lead through no link, as far as the trees of its mounts are known, and each path that leads
// through one. A tree is nil if it is not known. If it can't be said where a path leads, that is the last one, and nothing is replaced.
func Resolve(exec *pb.ExecOp, known func(*pb.Mount) *rules.Node) (*pb.ExecOp, []Way) {
	one := *exec
	one.Mounts = nil
	for _, mount := range exec.GetMounts() {
		copied := *mount
		one.Mounts = append(one.Mounts, &copied)
	}
	r := &resolver{exec: &one, view: view{changed: map[string]kind{}}}
	if r.selectors(known) && r.dests(known) && exec.Meta != nil {
		meta := *exec.Meta
		one.Meta = &meta
		if r.cwd() {
			r.script()
		}
	}
	if len(r.ways) == 0 || r.ways[len(r.ways)-1].To == "" {
		return exec, r.ways
	}
	return &one, r.ways
}

// left notes a path of which it can't be said where it leads, and returns that no further one is looked at.
func (r *resolver) left(what, text, first string) bool {
	r.ways = append(r.ways, Way{what, text, first, ""})
	return false
}

// found notes where a path leads, if that is elsewhere, and returns whether this can be written.
func (r *resolver) found(what string, from []string, text string, to way, err error) (string, bool) {
	is := from
	if strings.HasPrefix(text, "/") {
		is = nil
	}
	was := paths.Text(paths.Names(paths.Text(is, "")+"/"+text), "")
	now := paths.Text(to.names, "")
	switch {
	case err != nil:
		return "", r.left(what, was, to.first)
	case was == now:
		return text, true
	case !paths.IsPath(now):
		return "", r.left(what, was, to.first)
	}
	r.ways = append(r.ways, Way{what, was, to.first, now})
	return now, true
}

// selectors follows the links that BuildKit follows within the tree of each mount.
func (r *resolver) selectors(known func(*pb.Mount) *rules.Node) bool {
	for number, mount := range r.exec.Mounts {
		tree := known(mount)
		first := rules.LinkOn(paths.Names(mount.Selector), tree, true)
		if first == "" {
			continue
		}
		what := fmt.Sprintf("mount %d: the selector ", number)
		names, err := rules.Follow(mount.Selector, tree)
		text, ok := r.found(what, nil, mount.Selector, way{names: names, first: first}, err)
		if !ok {
			return false
		}
		mount.Selector = text
	}
	return true
}

// dests puts each mount where it is in the mounts before it: BuildKit mounts them in the order of their dests.
func (r *resolver) dests(known func(*pb.Mount) *rules.Node) bool {
	var order []int
	for number := range r.exec.Mounts {
		order = append(order, number)
	}
	destOf := func(number int) string {
		if paths.Clean(r.exec.Mounts[number].Dest) == "" {
			return ""
		}
		return r.exec.Mounts[number].Dest
	}
	slices.SortStableFunc(order, func(a, b int) int { return strings.Compare(destOf(a), destOf(b)) })
	for _, number := range order {
		mount := r.exec.Mounts[number]
		one := mounted{paths.Names(mount.Dest), paths.Names(mount.Selector), known(mount), mount.MountType == pb.MountType_CACHE}
		if len(one.dest) > 0 {
			what := fmt.Sprintf("mount %d: ", number)
			to, err := r.view.follow(nil, mount.Dest, true)
			// In the kernel a mount hides what is mounted below its place.
			isHidden := func(other mounted) bool { return isPrefix(to.names, other.dest) }
			if (to.first != "" || len(r.ways) > 0) && slices.ContainsFunc(r.view.mounts, isHidden) {
				err = errLost
			}
			// One that hides a link on the way to it is not found again, and BuildKit fails.
			if slices.ContainsFunc(to.links, func(at []string) bool { return isPrefix(to.names, at) }) {
				err = errLost
			}
			text, ok := r.found(what, nil, mount.Dest, to, err)
			if !ok {
				return false
			}
			mount.Dest, one.dest = text, paths.Names(text)
		}
		r.view.mounts = append(r.view.mounts, one)
	}
	return true
}

func (r *resolver) cwd() bool {
	to, err := r.view.follow(nil, "/"+r.exec.Meta.Cwd, true)
	text, ok := r.found("the working directory ", nil, "/"+r.exec.Meta.Cwd, to, err)
	if ok && paths.Clean(text) != paths.Clean(r.exec.Meta.Cwd) {
		r.exec.Meta.Cwd = text
	}
	return ok
}

// script replaces words of the calls, in order.
func (r *resolver) script() {
	script := standins.ScriptOf(r.exec)
	r.view.isCertain = script.IsChain()
	for number, words := range script.Calls() {
		if !r.call(script, number, words) {
			break
		}
	}
	r.exec.Meta.Args = script.Args()
}
