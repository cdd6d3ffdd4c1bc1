package rules

import (
	"math"

	"github.com/moby/buildkit/solver/pb"
)

const (
	absent    = -1             // a user or a group that is not set
	unchanged = math.MaxUint32 // one that changes nothing in BuildKit
	keptMode  = -1             // of a copy

	setUser       = 0o4000
	setGroup      = 0o2000
	groupExecutes = 0o010
	modeBits      = 0o7777
)

// An owner is a user and a group, each of them absent where it is not set.
type owner struct{ user, group int64 }

var noOwner = owner{absent, absent}

func numberOf(given *pb.UserOpt) int64 {
	if by, ok := given.GetUser().(*pb.UserOpt_ByID); ok {
		return int64(by.ByID)
	}
	return absent
}

// ownerOf returns the owner that an action sets. Rule Owner: in BuildKit one without a user has the user 0, and one without a
// group the user's number.
func ownerOf(given *pb.ChownOpt, like Rules) owner {
	if given == nil {
		return noOwner
	}
	o := owner{numberOf(given.User), numberOf(given.Group)}
	if like.Has(Owner) {
		o.user = max(o.user, 0)
		if o.group == absent {
			o.group = o.user
		}
	}
	return o
}

// of sets the owner of an entry. Rule NoOwner: the number 4294967295 changes nothing, so what the system gave to the new
// file stays. Where no owner is set, that of `before` stays.
func (o owner) of(one *entry, before, created [2]uint32, like Rules) {
	for i, number := range []int64{o.user, o.group} {
		chosen := uint32(number)
		switch {
		case number == absent:
			chosen = before[i]
		case number == unchanged && like.Has(NoOwner):
			chosen = created[i]
		}
		if i == 0 {
			one.user = chosen
		} else {
			one.group = chosen
		}
	}
}

// modeOfMade returns the mode that mkdir and mkfile set. Rule Mode: the low 9 bits of a mode, in llbm the low 12.
func modeOfMade(mode int32, like Rules) uint32 {
	if like.Has(Mode) {
		return uint32(mode) & 0o777
	}
	return uint32(mode) & modeBits
}

// inherits is whether a new entry is in a directory with the set-group bit, and that matters.
func inherits(in entry, like Rules) bool { return like.Has(SetGroup) && in.mode&setGroup != 0 }

// creator returns the owner of a new entry before an action changes it. Rule SetGroup: in a directory with the set-group bit
// new files get its group.
func creator(in entry, like Rules) [2]uint32 {
	if inherits(in, like) {
		return [2]uint32{0, in.group}
	}
	return [2]uint32{}
}

// made returns a new entry in a directory. Rule SetGroup: a new directory also gets the set-group bit of its parent.
func made(one, in entry, by owner, like Rules) entry {
	created := creator(in, like)
	if one.dir && inherits(in, like) {
		one.mode |= setGroup
	}
	by.of(&one, created, created, like)
	return one
}

// writtenOver returns the entry of a file that replaces another one. Rule MkfileOver: it keeps its mode, and its owner unless
// the action has one; a change of the owner clears the set-id bits.
func writtenOver(old entry, given *pb.ChownOpt, new entry, like Rules) entry {
	one := old
	one.content, one.time, one.linked = new.content, new.time, false // that it has other names was said of the action
	if given != nil {
		one.mode &^= setUser
		if one.mode&groupExecutes != 0 {
			one.mode &^= setGroup
		}
	}
	before := [2]uint32{old.user, old.group}
	ownerOf(given, like).of(&one, before, before, like)
	return one
}
