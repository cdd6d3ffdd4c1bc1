package rules

import (
	"context"
	"errors"

	"github.com/moby/buildkit/solver/pb"
)

// IsUnknown is whether an action was not done since it is not known what BuildKit makes of it.
func IsUnknown(err error) bool {
	return errors.Is(err, ErrUnpacks) || errors.Is(err, ErrUnknown) || errors.Is(err, ErrHost)
}

// ErrUnpacks is why a copy is not done that would unpack an archive.
var ErrUnpacks = errors.New("an archive would be unpacked")

// What an action has that llbm does not take.
const (
	ByName   = "an owner by name"
	Unpacked = "an archive to unpack"
	Filtered = "patterns"
)

// Beyond says what an action has that llbm does not take; empty if it has nothing.
func Beyond(action *pb.FileAction) string {
	c := action.GetCopy()
	switch {
	case len(NamesOf(action)) > 0:
		return ByName
	case c.GetAttemptUnpackDockerCompatibility():
		return Unpacked
	case hasPatterns(c):
		return Filtered
	}
	return ""
}

func hasPatterns(c *pb.FileActionCopy) bool {
	return len(c.GetIncludePatterns())+len(c.GetExcludePatterns()) > 0
}

// IsBeyond is whether a file op has an action that llbm does not take.
func IsBeyond(op *pb.FileOp) bool {
	for _, action := range op.GetActions() {
		if Beyond(action) != "" {
			return true
		}
	}
	return false
}

// Within returns an op, whose actions may be changed, with the actions of a file op that llbm takes: what it does not take is dropped,
// so that all else of the op can be checked. It returns whether anything was dropped.
func Within(op *pb.Op) bool {
	dropped := false
	for _, action := range op.GetFile().GetActions() {
		if Beyond(action) == "" {
			continue
		}
		dropped = true
		if owner := ownerIn(action); owner != nil {
			owner.User, owner.Group = withoutName(owner.User), withoutName(owner.Group)
		}
		if c := action.GetCopy(); c != nil {
			c.AttemptUnpackDockerCompatibility, c.IncludePatterns, c.ExcludePatterns = false, nil, nil
		}
	}
	return dropped
}

func withoutName(one *pb.UserOpt) *pb.UserOpt {
	if one.GetByName() != nil {
		return &pb.UserOpt{User: &pb.UserOpt_ByID{}}
	}
	return one
}

// Unpacks is whether a copy would unpack an archive of the tree that it copies from.
func Unpacks(ctx context.Context, c *pb.FileActionCopy, from *Node) (bool, error) {
	if !c.AttemptUnpackDockerCompatibility {
		return false, nil
	}
	sources, err := Sources(ctx, c, from, All)
	if err != nil {
		return false, ctx.Err() // it copies nothing
	}
	for _, one := range sources {
		if from.At(one.Path).isArchive() {
			return true, nil
		}
	}
	return false, nil
}
