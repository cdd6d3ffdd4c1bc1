package rules

import (
	"strings"

	"github.com/moby/buildkit/solver/pb"
	"llbm/daemon/internal/paths"
)

const (
	// mostKnown is how many entries a tree has at most that is known before a definition runs.
	mostKnown = 1000
	// mostDirectories is how many paths are remembered that are surely directories; then they are forgotten.
	mostDirectories = 256
	// mostNames is more names than the destination of a copy has below which a path is surely not too long.
	mostNames = 32
)

// A known is what is known of an output before its definition runs.
type known struct {
	tree        *Node           // nil if it is not known
	isChanged   bool            // a layer may remove something, or it is a merge
	isLocal     bool            // its root may be that of a local source
	isRun       bool            // it may come from an execution
	directories map[string]bool // paths that an action made directories
}

// mayHave is whether something can be at a path.
func (k *known) mayHave(path []string) bool { return k.tree == nil || k.tree.At(path) != nil }

// mayHaveBelow is whether a directory can be below a path.
func (k *known) mayHaveBelow(path []string) bool {
	if k.tree == nil {
		return true
	}
	for _, one := range k.tree.At(path).children().All() {
		if one.dir {
			return true
		}
	}
	return false
}

// has is whether a path is surely a directory.
func (k *known) has(path []string) bool {
	return len(path) == 0 || k.directories[strings.Join(path, "/")] || k.tree != nil && k.tree.At(path).IsDir()
}

// mayBeBelowFile is whether a file can be above a path.
func (k *known) mayBeBelowFile(path []string) bool { return k.tree == nil || k.tree.isBelowFile(path) }

// directoriesAfter returns the paths that are surely directories after an action.
func directoriesAfter(action *pb.FileAction, base *known) map[string]bool {
	if action.GetRm() != nil {
		return nil
	}
	var made []string
	if mkdir := action.GetMkdir(); mkdir != nil {
		made = paths.Names(mkdir.Path)
	}
	if c := action.GetCopy(); c != nil && strings.HasSuffix(c.Dest, "/") && !c.AllowEmptyWildcard {
		made = paths.Names(c.Dest)
	}
	if len(made) == 0 {
		return base.directories
	}
	after := map[string]bool{}
	if len(base.directories)+len(made) <= mostDirectories {
		for path := range base.directories {
			after[path] = true
		}
	}
	for count := range made {
		after[strings.Join(made[:count+1], "/")] = true
	}
	return after
}

// isLarge is whether a tree has more than some entries.
func (n *Node) isLarge(most int) bool {
	count := 0
	var add func(*Node) bool
	add = func(one *Node) bool {
		if count++; count > most {
			return true
		}
		for _, below := range one.below.All() {
			if add(below) {
				return true
			}
		}
		return false
	}
	return n != nil && add(n)
}

// knownMerge returns what is known of a merge, and the rules that can matter for it.
func knownMerge(op *pb.MergeOp, inputs []*known) (*known, []Rule) {
	listed, isWhole := 0, true
	for _, one := range op.GetInputs() {
		if one.Input != nothing {
			isWhole = isWhole && int(one.Input) == listed
			listed++
		}
	}
	var found []Rule
	switch {
	case len(inputs) == 0:
		found = append(found, MergeNothing)
	case !isWhole || listed != len(inputs):
		found = append(found, MergeInputs)
	}
	made := &known{isChanged: len(inputs) > 1}
	isRemoved := false
	for _, one := range inputs {
		isRemoved = isRemoved || one.isChanged
		made.isLocal, made.isRun = made.isLocal || one.isLocal, made.isRun || one.isRun
	}
	if isRemoved && len(inputs) > 1 {
		found = append(found, MergeLayers)
	}
	if made.isChanged = made.isChanged || isRemoved; len(found) > 0 {
		return made, found
	}
	made.tree = Empty()
	for _, one := range inputs {
		if one.tree == nil {
			return &known{isChanged: made.isChanged, isLocal: made.isLocal, isRun: made.isRun}, nil
		}
		made.tree = laid(made.tree, one.tree)
	}
	if made.tree.isLarge(mostKnown) {
		made.tree = nil
	}
	return made, nil
}
