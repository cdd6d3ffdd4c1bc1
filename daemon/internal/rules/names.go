package rules

import (
	"bytes"
	"errors"
	"io"

	"github.com/moby/buildkit/solver/pb"
	"github.com/moby/sys/user"
)

// ErrUnknown is why an action is not done whose owner's name is in a file of which the content is not known.
var ErrUnknown = errors.New("a content is not known")

// The files in which BuildKit looks for names of users and groups.
var (
	passwd = []string{"etc", "passwd"}
	group  = []string{"etc", "group"}
)

// ownerIn returns the owner that an action has, or nil.
func ownerIn(action *pb.FileAction) *pb.ChownOpt {
	switch a := action.Action.(type) {
	case *pb.FileAction_Mkdir:
		return a.Mkdir.GetOwner()
	case *pb.FileAction_Mkfile:
		return a.Mkfile.GetOwner()
	case *pb.FileAction_Copy:
		return a.Copy.GetOwner()
	}
	return nil
}

// NamesOf returns the names of an action's owner.
func NamesOf(action *pb.FileAction) []*pb.NamedUserOpt {
	var found []*pb.NamedUserOpt
	owner := ownerIn(action)
	for _, one := range []*pb.UserOpt{owner.GetUser(), owner.GetGroup()} {
		if by := one.GetByName(); by != nil {
			found = append(found, by)
		}
	}
	return found
}

// A fileOfOwner is one in which a name is looked up, in the tree of an input or of a result.
type fileOfOwner struct {
	index pb.InputIndex
	path  []string
}

// filesOfOwner returns the files in which the names of an action's owner are looked up.
func filesOfOwner(action *pb.FileAction) []fileOfOwner {
	var found []fileOfOwner
	owner := ownerIn(action)
	if by := owner.GetUser().GetByName(); by != nil {
		found = append(found, fileOfOwner{by.Input, passwd})
	}
	if by := owner.GetGroup().GetByName(); by != nil {
		found = append(found, fileOfOwner{by.Input, group})
	}
	return found
}

// Named returns an action with numbers in the place of its owner's names, as BuildKit reads them in the trees of inputs and of results.
// What is not there has the number 0. Without names it is the same action.
func Named(action *pb.FileAction, trees func(pb.InputIndex) (*Node, error)) (*pb.FileAction, error) {
	names := NamesOf(action)
	for _, one := range names {
		if one.Input < 0 {
			return nil, fails("invalid user index: %d", one.Input)
		}
	}
	if len(names) == 0 {
		return action, nil
	}
	owner := ownerIn(action)
	uid, gid, err := userOf(owner.GetUser(), trees)
	if err != nil {
		return nil, err
	}
	if gid, err = groupOf(owner.GetGroup(), gid, trees); err != nil {
		return nil, err
	}
	return withOwner(action, uint32(uid), uint32(gid)), nil
}

// userOf returns the number of a user, and that of its group.
func userOf(one *pb.UserOpt, trees func(pb.InputIndex) (*Node, error)) (uid, gid int, err error) {
	by := one.GetByName()
	if by == nil {
		number := int(max(0, numberOf(one)))
		return number, number, nil
	}
	text, err := textAt(trees, by.Input, passwd)
	if err != nil {
		return 0, 0, err
	}
	found, err := user.ParsePasswdFilter(text, func(u user.User) bool { return u.Name == by.Name })
	if err != nil {
		return 0, 0, fails("%v", err)
	}
	if len(found) == 0 {
		return 0, 0, nil
	}
	return found[0].Uid, found[0].Gid, nil
}

// groupOf returns the number of a group, or else the one that the user has.
func groupOf(one *pb.UserOpt, gid int, trees func(pb.InputIndex) (*Node, error)) (int, error) {
	by := one.GetByName()
	if by == nil {
		if number := numberOf(one); number != absent {
			gid = int(number)
		}
		return gid, nil
	}
	text, err := textAt(trees, by.Input, group)
	if err != nil {
		return 0, err
	}
	found, err := user.ParseGroupFilter(text, func(g user.Group) bool { return g.Name == by.Name })
	if err != nil {
		return 0, fails("%v", err)
	}
	if len(found) > 0 {
		gid = found[0].Gid
	}
	return gid, nil
}

// textAt returns the content of a file of a tree; a file that is not there has none.
func textAt(trees func(pb.InputIndex) (*Node, error), index pb.InputIndex, path []string) (io.Reader, error) {
	t, err := trees(index)
	if err != nil {
		return nil, err
	}
	if path, err = followSource(path, true, t, All); err != nil {
		return nil, err
	}
	one := t.At(path)
	switch {
	case t.isBelowFile(path):
		return nil, fails("%s is below a file", shown(path))
	case one == nil:
		return bytes.NewReader(nil), nil
	case one.dir:
		return nil, fails("%s is a directory", shown(path))
	}
	text, known := one.content.known()
	if !known {
		return nil, ErrUnknown
	}
	return bytes.NewReader(text), nil
}

// withOwner returns an action with another owner.
func withOwner(action *pb.FileAction, user, group uint32) *pb.FileAction {
	number := func(n uint32) *pb.UserOpt { return &pb.UserOpt{User: &pb.UserOpt_ByID{ByID: n}} }
	one, owner := *action, &pb.ChownOpt{User: number(user), Group: number(group)}
	switch a := action.Action.(type) {
	case *pb.FileAction_Mkdir:
		made := *a.Mkdir
		made.Owner, one.Action = owner, &pb.FileAction_Mkdir{Mkdir: &made}
	case *pb.FileAction_Mkfile:
		made := *a.Mkfile
		made.Owner, one.Action = owner, &pb.FileAction_Mkfile{Mkfile: &made}
	case *pb.FileAction_Copy:
		made := *a.Copy
		made.Owner, one.Action = owner, &pb.FileAction_Copy{Copy: &made}
	}
	return &one
}
