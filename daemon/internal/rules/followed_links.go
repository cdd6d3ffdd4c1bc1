package rules

import (
	"context"
	"errors"
	"fmt"

	"github.com/moby/buildkit/solver/pb"
	"llbm/daemon/internal/paths"
)

// A Following says which path leads through a link, or to one, that BuildKit would follow, and llbm does not.
type Following struct {
	Action int    `json:"action"` // -1 of an execution
	Path   string `json:"path"`
	Link   string `json:"link"`
}

func (f Following) String() string {
	place := ""
	if f.Action >= 0 {
		place = fmt.Sprintf("action %d: ", f.Action)
	}
	if f.Link == "" {
		return place + f.Path + " leads through a symbolic link, which llbm does not follow"
	}
	return place + f.Path + " leads through the symbolic link " + f.Link + ", which llbm does not follow"
}

// FollowedIn returns what of a file op BuildKit would follow on the trees that llbm has, if this matters; nil if it does not.
func FollowedIn(ctx context.Context, op *pb.FileOp, inputs []*Node) (*Following, error) {
	hasLinks := false
	for _, one := range inputs {
		hasLinks = hasLinks || one.HasLinks()
	}
	if !hasLinks {
		return nil, nil
	}
	plain, followed := newFileOp(op, asRefs(inputs), None), newFileOp(op, asRefs(inputs), None|Followed)
	here, err := plain.outputs(ctx)
	there, otherErr := followed.outputs(ctx)
	if ctx.Err() != nil {
		return nil, ctx.Err()
	}
	if isSameEnd(here, there, err, otherErr) {
		return nil, nil
	}
	for number := range op.Actions {
		one, isDone := followed.steps[number]
		if fault, ok := failed(otherErr); ok && fault.Action == number && followed.failed != nil {
			one, isDone = *followed.failed, true
		}
		if !isDone {
			continue
		}
		if found := followedBy(op.Actions[number], one.base, one.second); found != nil {
			found.Action = number
			return found, nil
		}
	}
	return &Following{Action: 0, Path: "a path"}, nil
}

func isSameEnd(here, there []*Ref, err, otherErr error) bool {
	if err != nil || otherErr != nil {
		return err != nil && otherErr != nil && !errors.Is(otherErr, ErrHost)
	}
	return len(pairsOf(asTrees(there), asTrees(here))) == 0
}

// followedBy returns the first link on a path of an action.
func followedBy(action *pb.FileAction, base, second *Node) *Following {
	on := func(text string, n *Node, isLast bool) *Following {
		if link := LinkOn(paths.Names(text), n, isLast); link != "" {
			return &Following{Path: shown(paths.Names(text)), Link: link}
		}
		return nil
	}
	switch a := action.Action.(type) {
	case *pb.FileAction_Mkdir:
		return on(a.Mkdir.Path, base, true)
	case *pb.FileAction_Mkfile:
		return on(a.Mkfile.Path, base, true)
	case *pb.FileAction_Rm:
		return on(a.Rm.Path, base, !a.Rm.AllowNotFound)
	case *pb.FileAction_Copy:
		if found := on(a.Copy.Src, second, a.Copy.FollowSymlink); found != nil {
			return found
		}
		if found := on(a.Copy.Dest, base, true); found != nil {
			return found
		}
		if a.Copy.AllowWildcard && a.Copy.FollowSymlink && paths.HasWildcard(a.Copy.Src) && second.HasLinks() {
			return &Following{Path: a.Copy.Src}
		}
	}
	return nil
}

// LinkOn returns the path of the first link on a way in a tree, also at its end if that is asked for; "" if there is none.
func LinkOn(names []string, n *Node, isLast bool) string {
	for i, name := range names {
		n = n.Child(name)
		if n.IsLink() && (isLast || i+1 < len(names)) {
			return shown(names[:i+1])
		}
	}
	return ""
}
