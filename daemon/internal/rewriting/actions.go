package rewriting

import (
	"math"
	"strconv"
	"strings"

	"github.com/moby/buildkit/solver/pb"
	"llbm/daemon/internal/paths"
)

const (
	nothing   = pb.InputIndex(-1)
	noOutput  = pb.OutputIndex(-1)
	unchanged = math.MaxUint32 // the owner that changes nothing in BuildKit
	newMode   = 0o755
	madeMode  = 0o777 // what an mkfile and an mkdir set of a mode in BuildKit
	modeBits  = 0o7777
	setGroup  = 0o2000
	keptMode  = -1      // of a copy
	noName    = "[b-a]" // a pattern that matches nothing
)

// cloned returns an action whose fields can be changed. It shares what a mkfile writes.
func cloned(action *pb.FileAction) *pb.FileAction {
	one := *action
	switch a := action.Action.(type) {
	case *pb.FileAction_Mkfile:
		made := *a.Mkfile
		one.Action = &pb.FileAction_Mkfile{Mkfile: &made}
	case *pb.FileAction_Mkdir:
		made := *a.Mkdir
		one.Action = &pb.FileAction_Mkdir{Mkdir: &made}
	case *pb.FileAction_Rm:
		made := *a.Rm
		one.Action = &pb.FileAction_Rm{Rm: &made}
	case *pb.FileAction_Copy:
		made := *a.Copy
		one.Action = &pb.FileAction_Copy{Copy: &made}
	}
	return &one
}

// An actionWriter rewrites an action where this does not depend on trees, and says what it changed. What BuildKit makes of the
// action stays the same on all trees.
type actionWriter struct{ changes []string }

func (w *actionWriter) change(what string) { w.changes = append(w.changes, what) }

// within drops what llbm does not take of a copy. It may copy more then.
func (w *actionWriter) within(action *pb.FileAction) {
	c := action.GetCopy()
	if c.GetAttemptUnpackDockerCompatibility() {
		w.change("no attemptUnpackDockerCompatibility: no archive is there")
		c.AttemptUnpackDockerCompatibility = false
	}
	if c != nil && hasPatterns(c) {
		w.change("no patterns")
		c.IncludePatterns, c.ExcludePatterns = nil, nil
	}
}

func (w *actionWriter) rewrite(action *pb.FileAction) {
	switch a := action.Action.(type) {
	case *pb.FileAction_Mkfile:
		w.mode(&a.Mkfile.Mode)
		w.owner(&a.Mkfile.Owner, true)
		w.names(&a.Mkfile.Path)
	case *pb.FileAction_Mkdir:
		w.mode(&a.Mkdir.Mode)
		w.owner(&a.Mkdir.Owner, true)
	case *pb.FileAction_Rm:
		w.removal(a.Rm)
	case *pb.FileAction_Copy:
		w.copied(a.Copy)
	}
}

// text sets a text.
func (w *actionWriter) text(given *string, new string) {
	if *given != new {
		w.change(quoted(*given) + " is " + quoted(new))
		*given = new
	}
}

// quoted returns a text between single quotes, with what can't be printed escaped.
func quoted(text string) string {
	inside := strconv.Quote(text)
	return "'" + strings.ReplaceAll(inside[1:len(inside)-1], `\"`, `"`) + "'"
}

func octal(mode uint32) string {
	text := strconv.FormatUint(uint64(mode), 8)
	return strings.Repeat("0", max(0, 4-len(text))) + text
}

// mode drops what an mkfile and an mkdir do not set of a mode.
func (w *actionWriter) mode(mode *int32) {
	if *mode&0o7000 != 0 {
		w.change("mode " + octal(uint32(*mode)&0o7777) + " is " + octal(uint32(*mode)&madeMode))
		*mode &= madeMode
	}
}

// number returns the number of a user or a group, if it has one.
func number(one *pb.UserOpt) (uint32, bool) {
	by, ok := one.GetUser().(*pb.UserOpt_ByID)
	if !ok {
		return 0, false
	}
	return by.ByID, true
}

// ownerOf returns the user and the group that BuildKit sets, if an owner is set.
func ownerOf(owner *pb.ChownOpt) (user, group uint32, ok bool) {
	if owner == nil {
		return 0, 0, false
	}
	user, _ = number(owner.User)
	if group, ok = number(owner.Group); !ok {
		group = user
	}
	return user, group, true
}

func chown(user, group uint32) *pb.ChownOpt {
	return &pb.ChownOpt{User: &pb.UserOpt{User: &pb.UserOpt_ByID{ByID: user}}, Group: &pb.UserOpt{User: &pb.UserOpt_ByID{ByID: group}}}
}

// owner sets both the user and the group, where llbm would set others. For what is made, absent is 0.
func (w *actionWriter) owner(owner **pb.ChownOpt, made bool) {
	user, group, ok := ownerOf(*owner)
	if !ok {
		return
	}
	given := *owner
	same := func(one *pb.UserOpt, want uint32) bool {
		here, set := number(one)
		return here == want && (set || made)
	}
	if !same(given.User, user) || !same(given.Group, group) {
		w.change("owner " + strconv.FormatUint(uint64(user), 10) + ":" + strconv.FormatUint(uint64(group), 10))
		*owner = chown(user, group)
	}
}

// names drops names of a text that a `..` removes, if llbm does not take them.
func (w *actionWriter) names(given *string) {
	end := ""
	switch {
	case strings.HasSuffix(*given, "/."):
		end = "/."
	case strings.HasSuffix(*given, "/"):
		end = "/"
	}
	new := paths.Text(paths.Names(*given), end)
	if !paths.IsPath(*given) && paths.IsPath(new) {
		w.text(given, new)
	}
}

// removal lets an rm of a pattern find nothing. An rm of a plain text that leads to the root or above it stays: BuildKit reads
// it in another way than a path.
func (w *actionWriter) removal(rm *pb.FileActionRm) {
	parts := paths.Names(rm.Path)
	if rm.AllowWildcard || len(parts) > 0 {
		w.names(&rm.Path)
	}
	n := paths.Wild(parts)
	if rm.AllowWildcard && n < len(parts) {
		if !paths.IsPattern(strings.Join(parts[n:], "/")) {
			w.text(&rm.Path, paths.Text(append(parts[:n:n], noName), ""))
		}
		if !rm.AllowNotFound {
			w.change("allowNotFound")
			rm.AllowNotFound = true
		}
	}
	w.literal(&rm.Path, &rm.AllowWildcard)
}

// literal drops the flag where a text has a backslash and no wildcard: in BuildKit a backslash is then a character of the name.
func (w *actionWriter) literal(given *string, flag *bool) {
	parts := paths.Names(*given)
	if *flag && strings.Contains(*given, `\`) && paths.Wild(parts) == len(parts) {
		w.change("no allowWildcard")
		*flag = false
		w.text(given, paths.Text(parts, ""))
	}
}

func (w *actionWriter) copied(c *pb.FileActionCopy) {
	w.owner(&c.Owner, false)
	w.names(&c.Src)
	w.names(&c.Dest)
	if c.AllowWildcard && c.AllowEmptyWildcard && !paths.HasWildcard(c.Src) {
		w.change("no allowEmptyWildcard")
		c.AllowEmptyWildcard = false
	}
	w.literal(&c.Src, &c.AllowWildcard)
	if strings.HasSuffix(c.Dest, "/.") && len(paths.Names(c.Dest)) > 0 {
		w.text(&c.Dest, strings.TrimSuffix(c.Dest, "."))
	}
}

// What is known of the sources of a copy.
type sourcesKnown int

const (
	unknownSources   sourcesKnown = iota
	someSources                   // there is one at least
	directorySources              // and all are directories
)

// directoryBefore returns the mkdir that makes the directory that BuildKit makes before a copy, and llbm does not, or with another
// owner or mode; nil if there is none.
func directoryBefore(c *pb.FileActionCopy, known sourcesKnown) *pb.FileAction {
	dest := paths.Names(c.Dest)
	if len(dest) == 0 || known == unknownSources && c.AllowWildcard && c.AllowEmptyWildcard && paths.HasWildcard(c.Src) {
		return nil
	}
	user, group, owned := ownerOf(c.Owner)
	owned = owned && (user != 0 || group != 0) && user != unchanged && group != unchanged
	root := len(paths.Names(c.Src)) == 0
	switch {
	case strings.HasSuffix(c.Dest, "/") || (root || known == directorySources) && c.DirCopyContents:
		if c.CreateDestPath && !owned && !c.DirCopyContents && !root {
			return nil
		}
	case c.CreateDestPath && owned && len(dest) > 1:
		dest = dest[:len(dest)-1]
	default:
		return nil
	}
	mkdir := &pb.FileActionMkDir{Path: paths.Text(dest, ""), Mode: newMode, MakeParents: c.CreateDestPath, Owner: c.Owner, Timestamp: c.Timestamp}
	return &pb.FileAction{Action: &pb.FileAction_Mkdir{Mkdir: mkdir}}
}
