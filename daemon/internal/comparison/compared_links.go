package comparison

import (
	"github.com/moby/buildkit/solver/pb"
	"llbm/daemon/internal/rules"
	"llbm/daemon/internal/views"
)

// hasLinks is whether contents of trees may be symbolic links.
func (s *session) hasLinks() bool {
	for _, one := range s.request.Known {
		if len(one.Target) > 0 {
			return true
		}
	}
	return false
}

// follows says it if BuildKit would follow a link at a vertex that runs, on the trees that llbm has.
func (s *session) follows(v int, here []*rules.Node) error {
	r, isRun := s.inRun[s.sent.Vertices[v].Row]
	if !s.linked || !isRun || here == nil {
		return nil
	}
	op := s.run.Vertices[r].Op
	var found *rules.Following
	var err error
	switch {
	case op.GetFile() != nil:
		found, err = rules.FollowedIn(s.ctx, op.GetFile(), here)
	case op.GetExec() != nil:
		found = followedByExec(op, here)
	}
	if err != nil || found == nil {
		return err
	}
	if row := s.rows[s.sent.Vertices[v].Row]; row != nil && found.Action >= 0 && found.Action < len(row.Actions) {
		found.Action = row.Actions[found.Action]
	}
	return s.talk.Write(Message{Follows: &Follows{v, found.String()}})
}

// followedByExec returns the first path of an execution that leads through a link, or to one: of a mount, or of a call.
func followedByExec(op *pb.Op, inputs []*rules.Node) *rules.Following {
	treeOf := func(mount *pb.Mount) *rules.Node {
		if mount.Input < 0 || int(mount.Input) >= len(inputs) {
			return rules.Empty()
		}
		return inputs[mount.Input]
	}
	for _, mount := range op.GetExec().GetMounts() {
		if mount.MountType == pb.MountType_CACHE && treeOf(mount).HasLinks() {
			return &rules.Following{Action: -1, Path: "a path of a cache that begins with links"}
		}
	}
	if _, ways := views.Resolve(op.GetExec(), treeOf); len(ways) > 0 {
		one := ways[0]
		if last := ways[len(ways)-1]; last.To == "" {
			one = last
		}
		return &rules.Following{Action: -1, Path: one.What + one.Path, Link: one.Link}
	}
	return nil
}
