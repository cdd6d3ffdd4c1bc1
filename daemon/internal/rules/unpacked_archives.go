package rules

import (
	"path"
	"slices"
	"strings"

	"llbm/daemon/internal/links"
	"llbm/daemon/internal/paths"
)

// A Folder says of a directory of the source that an archive unpacks to that it is copied as BuildKit unpacks: what it has is what the
// archive has in a directory for which it has no entry, and that is the dest of the copy. The zero Folder is none.
type Folder struct {
	// Names is one more than the names of that directory's path within the archive: those before them, in the dest, are the directory to
	// which the archive is unpacked.
	Names int `json:"names"`
	// Own is whether it has the mode and the owner of an entry for dest itself.
	Own bool `json:"own,omitempty"`
	// Late has the paths below it of directories whose entries come after others in them, each after a byte 0: what is there before is no file.
	Late string `json:"late,omitempty"`
}

// LateOf returns paths as a Folder has them.
func LateOf(all []string) string {
	var text strings.Builder
	for _, one := range all {
		text.WriteString("\x00" + one)
	}
	return text.String()
}

// checkLate refuses what is in the place of a directory whose entry comes after others in it: these fail below a file, and go to where a link
// leads.
func (f Folder) checkLate(dest []string, into *Node) error {
	for _, one := range strings.Split(f.Late, "\x00")[1:] {
		at := slices.Concat(dest, paths.Names(one))
		switch there := into.At(at); {
		case there.IsLink():
			return fails("%s is a symbolic link to which an archive unpacks before it replaces it, which llbm does not follow", shown(at))
		case there != nil && !there.dir:
			return fails("%s is a file", shown(at))
		}
	}
	return nil
}

// isUnpacked is whether a directory is copied as an archive is unpacked.
func (f Folder) isUnpacked() bool { return f.Names > 0 }

// IsUnpacked is whether a node is copied as an archive is unpacked.
func (n *Node) IsUnpacked() bool { return n != nil && n.folder.isUnpacked() }

// Dest returns where the dest of a copy of a node leads in another tree in BuildKit.
func (n *Node) Dest(text string, into *Node) ([]string, error) {
	if n.IsUnpacked() {
		return n.folder.destOf(text, into, All)
	}
	return Follow(text, into)
}

// withoutFolder returns a node as what is copied has it.
func (n *Node) withoutFolder() *Node {
	one := n.entry
	one.folder = Folder{}
	return n.withEntry(one)
}

// destOf returns where what an archive has in a directory is copied to: BuildKit unpacks with the directory to which it unpacks as the root,
// so links below it lead there. A directory that is missing is made, but what a link leads to has to be there.
func (f Folder) destOf(dest string, n *Node, like Rules) ([]string, error) {
	names := paths.Names(dest)
	count := max(0, len(names)-f.Names+1)
	text, err := followClean(paths.Text(names[:count], ""), n, like)
	if err != nil {
		return nil, err
	}
	root := paths.Names(text)
	now, todo, linked := slices.Clone(root), slices.Clone(names[count:]), 0
	for walked := 0; len(todo) > 0; {
		name := todo[0]
		todo = todo[1:]
		isOfLink := linked > 0
		linked = max(0, linked-1)
		switch name {
		case "", ".":
			continue
		case "..":
			now = now[:max(len(root), len(now)-1)]
			continue
		}
		now = below(now, name)
		one := n.At(now)
		if one == nil && isOfLink {
			return nil, fails("%s is missing", shown(now))
		}
		if !one.IsLink() {
			continue
		}
		if walked++; walked > links.MostOfKernel {
			return nil, links.ErrTooMany
		}
		target := string(one.content.given.Target)
		now = now[:len(now)-1]
		if path.IsAbs(target) {
			now = slices.Clone(root)
		}
		parts := strings.Split(target, "/")
		todo, linked = append(parts, todo...), linked+len(parts)
	}
	return now, nil
}
