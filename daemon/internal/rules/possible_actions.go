package rules

import (
	"path"
	"slices"
	"strings"

	"github.com/moby/buildkit/solver/pb"
	"llbm/daemon/internal/paths"
)

// A possibles is a set of rules while it is collected.
type possibles struct{ rules Rules }

func (p *possibles) add(rule Rule, matters bool) {
	if matters {
		p.rules = p.rules.With(rule)
	}
}

// possibleRules returns the rules that can matter for an action, in their order.
func possibleRules(action *pb.FileAction, base, second *known) []Rule {
	p := &possibles{}
	switch a := action.Action.(type) {
	case *pb.FileAction_Copy:
		p.ofCopy(a.Copy, base, second)
	case *pb.FileAction_Mkfile:
		p.ofMkfile(a.Mkfile, base)
	case *pb.FileAction_Mkdir:
		p.ofMkdir(a.Mkdir, base)
	case *pb.FileAction_Rm:
		p.ofRm(a.Rm, base)
	}
	var found []Rule
	for rule := range numberOfRules {
		if p.rules.Has(rule) {
			found = append(found, rule)
		}
	}
	return found
}

// ofTexts adds the rules of the texts of paths.
func (p *possibles) ofTexts(texts ...string) {
	for _, text := range texts {
		p.add(Names, !paths.IsPath(text))
		p.add(Length, bytesOf(paths.Names(text)) > mostOfPath)
	}
}

// ofOwner adds the rules of an owner.
func (p *possibles) ofOwner(given *pb.ChownOpt, isCopy bool) {
	if given == nil {
		return
	}
	there, here := ownerOf(given, All), ownerOf(given, None)
	if !isCopy {
		here = owner{max(here.user, 0), max(here.group, 0)}
	}
	p.add(Owner, here != there)
	p.add(NoOwner, there.user == unchanged || there.group == unchanged)
}

// ofParent adds the rule of set-group directories, if the parent of a path can be one.
func (p *possibles) ofParent(path []string, base *known) {
	p.add(SetGroup, base.isRun || len(path) > 1 && base.tree == nil)
}

func (p *possibles) ofMkfile(given *pb.FileActionMkFile, base *known) {
	path := paths.Names(given.Path)
	p.ofTexts(given.Path)
	p.ofOwner(given.Owner, false)
	p.ofParent(path, base)
	p.add(Mode, given.Mode&0o7000 != 0)
	p.add(MkfileOver, base.mayHave(path))
}

func (p *possibles) ofMkdir(given *pb.FileActionMkDir, base *known) {
	path := paths.Names(given.Path)
	p.ofTexts(given.Path)
	p.ofOwner(given.Owner, false)
	p.ofParent(path, base)
	p.add(Mode, given.Mode&0o7000 != 0)
	p.add(MkdirOver, !given.MakeParents && len(path) > 0 && base.mayHave(path))
	p.add(MkdirPath, slices.Contains(strings.Split(given.Path, "/"), ".."))
}

// canMatchSlash is whether a part of a pattern has a class that can match a `/`, or `?` or a class after a `*`, or ends in a
// backslash, which makes the `/` after it plain.
func canMatchSlash(part string) bool {
	if strings.Contains(part, "[^") || strings.HasSuffix(part, `\`) {
		return true
	}
	if star := strings.IndexByte(part, '*'); star >= 0 && strings.ContainsAny(part[star:], "?[") {
		return true
	}
	return strings.Contains(part, "[") && (strings.Contains(part, "-") || !paths.IsPattern(part))
}

// ofPattern adds the rules of a pattern; isSkipped is whether no match is no fault in llbm.
func (p *possibles) ofPattern(text string, isSkipped bool) {
	given := paths.Names(text)
	names, parts := given[:paths.Wild(given)], given[paths.Wild(given):]
	p.add(Escape, slices.ContainsFunc(names, func(name string) bool { return strings.Contains(name, `\`) }))
	if len(parts) == 0 {
		return
	}
	p.add(WildcardBase, len(names) > 0 && isSkipped)
	p.add(BadPattern, paths.IsMalformed(parts))
	p.add(Match, slices.ContainsFunc(parts, canMatchSlash))
}

func (p *possibles) ofRm(given *pb.FileActionRm, base *known) {
	names := paths.Names(given.Path)
	p.ofTexts(given.Path)
	if given.AllowWildcard {
		p.ofPattern(given.Path, given.AllowNotFound)
		if paths.HasWildcard(given.Path) {
			p.add(RmNoMatch, !given.AllowNotFound)
			return
		}
	} else {
		p.add(RmRoot, path.Clean(given.Path) == ".")
	}
	p.add(RmBelowFile, given.AllowNotFound && len(names) > 1 && base.mayBeBelowFile(names))
}

func (p *possibles) ofCopy(given *pb.FileActionCopy, base, second *known) {
	dest := paths.Names(given.Dest)
	p.ofTexts(given.Src, given.Dest)
	p.ofOwner(given.Owner, true)
	p.ofSource(given, second)
	p.ofDest(given, base, second)
	p.ofParents(given, base)
	isMany := given.AllowWildcard && paths.HasWildcard(given.Src)
	p.add(NestedDirectory, isMany || base.mayHaveBelow(dest))
	p.add(Names, len(dest) >= mostNames)
	p.add(Length, len(dest) >= mostNames)
}

// ofSource adds the rules of the source of a copy.
func (p *possibles) ofSource(given *pb.FileActionCopy, second *known) {
	names := paths.Names(given.Src)
	if !given.AllowWildcard {
		p.add(SourceDot, strings.HasSuffix(given.Src, "/.") && len(names) > 0)
		return
	}
	p.ofPattern(given.Src, given.AllowEmptyWildcard)
	p.add(PlainWildcard, given.AllowEmptyWildcard && !paths.HasWildcard(given.Src) && !second.has(names))
}

// ofDest adds the rules of the dest of a copy.
func (p *possibles) ofDest(given *pb.FileActionCopy, base, second *known) {
	dest, source := paths.Names(given.Dest), paths.Names(given.Src)
	if base.has(dest) {
		return
	}
	isRoot := len(source) == 0 || strings.HasSuffix(given.Src, "/.")
	p.add(DestSlash, strings.HasSuffix(given.Dest, "/") && (!given.CreateDestPath || given.DirCopyContents || isRoot))
	p.add(DestDot, strings.HasSuffix(given.Dest, "/."))
	p.add(ContentsTarget, given.DirCopyContents)
	p.add(LocalRoot, len(source) == 0 && second.isLocal)
	isEmpty := given.AllowWildcard && given.AllowEmptyWildcard && !given.CreateDestPath
	p.add(EmptyCopy, isEmpty && !base.has(dest[:max(0, len(dest)-1)]))
}

// ofParents adds the rules of directories that a copy makes besides what it copies.
func (p *possibles) ofParents(given *pb.FileActionCopy, base *known) {
	dest := paths.Names(given.Dest)
	makesDest := strings.HasSuffix(given.Dest, "/") || strings.HasSuffix(given.Dest, "/.") || given.DirCopyContents
	if base.has(dest) || base.has(dest[:max(0, len(dest)-1)]) && !makesDest {
		return
	}
	by := ownerOf(given.Owner, All)
	p.add(ParentOwner, by != noOwner && by != owner{})
	p.ofParent(dest, base)
}
