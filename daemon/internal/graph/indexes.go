package graph

import (
	"fmt"

	"github.com/moby/buildkit/solver/pb"
)

// checkIndexes refuses an op that names an input, or an action before, which it has not. Who reads the op afterwards does not have
// to look: docs/FORMATS.md, "Loading", has the rule.
func checkIndexes(op *pb.Op) error {
	count := len(op.Inputs)
	for _, one := range op.GetMerge().GetInputs() {
		if err := checkIndex(one.Input, count); err != nil {
			return err
		}
	}
	for _, mount := range op.GetExec().GetMounts() {
		if mount.MountType != pb.MountType_BIND && mount.MountType != pb.MountType_CACHE {
			continue
		}
		if err := checkIndex(mount.Input, count); err != nil {
			return err
		}
	}
	for number, action := range op.GetFile().GetActions() {
		err := checkIndex(action.Input, count+number)
		if err == nil && action.GetCopy() != nil {
			err = checkIndex(action.SecondaryInput, count+number)
		}
		if err != nil {
			return err
		}
	}
	return nil
}

func checkIndex(index pb.InputIndex, count int) error {
	if index < -1 || index >= pb.InputIndex(count) {
		return fmt.Errorf("input %d of %d", index, count)
	}
	return nil
}
