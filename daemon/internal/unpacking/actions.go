package unpacking

import (
	"path"
	"slices"

	"github.com/moby/buildkit/solver/pb"
)

// A writer writes the actions of an op that has more inputs than before.
type writer struct {
	before, count int // the inputs
	needed        []*archiveSource
	place         map[int]pb.InputIndex // of the result of each action
	new           []*pb.FileAction
	from          []int
}

// index returns the new index of an input or of a result.
func (w *writer) index(old pb.InputIndex) pb.InputIndex {
	if int(old) < w.before {
		return old
	}
	if place, ok := w.place[int(old)-w.before]; ok {
		return place
	}
	return pb.InputIndex(w.count + len(w.new) + int(old) - w.before) // llbm refuses what is not there yet
}

// owner returns an owner with the new indexes of the trees in which its names are looked up.
func (w *writer) owner(owner *pb.ChownOpt) *pb.ChownOpt {
	if owner == nil {
		return nil
	}
	one := func(given *pb.UserOpt) *pb.UserOpt {
		by := given.GetByName()
		if by == nil {
			return given
		}
		return &pb.UserOpt{User: &pb.UserOpt_ByName{ByName: &pb.NamedUserOpt{Name: by.Name, Input: w.index(by.Input)}}}
	}
	return &pb.ChownOpt{User: one(owner.User), Group: one(owner.Group)}
}

// put adds an action of one that was sent, and returns its result.
func (w *writer) put(number int, action *pb.FileAction, base, second pb.InputIndex) pb.InputIndex {
	action.Input, action.SecondaryInput, action.Output = base, second, noOutput
	w.new, w.from = append(w.new, action), append(w.from, number)
	return pb.InputIndex(w.count + len(w.new) - 1)
}

// action adds an action: as it is, or as a copy of what each archive unpacks to and of each other source.
func (w *writer) action(number int, sent *pb.FileAction, added []addedSource) {
	base, second := w.index(sent.Input), w.index(sent.SecondaryInput)
	if len(added) == 0 {
		base = w.put(number, w.renumbered(sent), base, second)
	}
	for _, one := range added {
		c := *sent.GetCopy()
		c.Owner = w.owner(c.Owner)
		if one.archive == nil {
			c.Src, c.AllowWildcard, c.AllowEmptyWildcard, c.AttemptUnpackDockerCompatibility = one.path, false, false, false
			base = w.put(number, &pb.FileAction{Action: &pb.FileAction_Copy{Copy: &c}}, base, second)
			continue
		}
		mkdir := &pb.FileActionMkDir{Path: c.Dest, Mode: newMode, MakeParents: true, Owner: c.Owner, Timestamp: c.Timestamp}
		base = w.put(number, &pb.FileAction{Action: &pb.FileAction_Mkdir{Mkdir: mkdir}}, base, nothing)
		from := pb.InputIndex(w.before + slices.Index(w.needed, one.archive))
		for _, folder := range one.archive.folders {
			folderCopy := &pb.FileActionCopy{
				Src: "/" + folder.Name, Dest: path.Join("/", c.Dest, folder.Path), Mode: keptMode, DirCopyContents: true, CreateDestPath: true,
				Timestamp: c.Timestamp,
			}
			base = w.put(number, &pb.FileAction{Action: &pb.FileAction_Copy{Copy: folderCopy}}, base, from)
		}
	}
	w.place[number] = base
	w.new[int(base)-w.count].Output = sent.Output
}

// renumbered returns a copy of an action whose owner's names are looked up where they were.
func (w *writer) renumbered(sent *pb.FileAction) *pb.FileAction {
	one := *sent
	switch a := sent.Action.(type) {
	case *pb.FileAction_Copy:
		made := *a.Copy
		made.Owner = w.owner(made.Owner)
		one.Action = &pb.FileAction_Copy{Copy: &made}
	case *pb.FileAction_Mkdir:
		made := *a.Mkdir
		made.Owner = w.owner(made.Owner)
		one.Action = &pb.FileAction_Mkdir{Mkdir: &made}
	case *pb.FileAction_Mkfile:
		made := *a.Mkfile
		made.Owner = w.owner(made.Owner)
		one.Action = &pb.FileAction_Mkfile{Mkfile: &made}
	}
	return &one
}
