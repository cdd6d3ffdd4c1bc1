package rules

import (
	"path"
	"slices"
	"strings"

	"llbm/daemon/internal/links"
	"llbm/daemon/internal/paths"
)

// modeOfLink is the mode of each symbolic link.
const modeOfLink = 0o777

// ErrHost is why an action is not done: BuildKit looks for the target of a link on its own host.
var ErrHost = links.ErrHost

// isLink is whether an entry is a symbolic link.
func (e *entry) isLink() bool {
	return !e.dir && e.content.given != nil && len(e.content.given.Target) > 0
}

// IsLink is whether there is a symbolic link.
func (n *Node) IsLink() bool { return n != nil && n.isLink() }

// Linkname returns the target of a symbolic link.
func (n *Node) Linkname() string { return string(n.content.given.Target) }

// HasLinks is whether there is a link at or below a node.
func (n *Node) HasLinks() bool { return n != nil && n.Extent().HasLinks }

// target returns a function that reads links of a tree.
func (n *Node) target() links.Read {
	return func(at string) (string, error) {
		names := paths.Names(at)
		one := n.At(names)
		if one.IsLink() {
			return one.Linkname(), nil
		}
		if n.isBelowFile(names) {
			return "", fails("%s is below a file", shown(names))
		}
		return "", nil
	}
}

// follow returns the text of a path where it leads in a tree, all links followed; it is walked name by name. A text without links on
// its way stays as it is.
func follow(text string, n *Node, like Rules) (string, error) {
	if like&Followed == 0 || !n.HasLinks() {
		return text, nil
	}
	to, err := links.Resolve(text, n.target())
	if err != nil {
		return "", err
	}
	if to == path.Join("/", text) {
		return text, nil
	}
	return to, nil
}

// followClean does the same for a text of which a `..` has removed the name before it, whatever that is.
func followClean(text string, n *Node, like Rules) (string, error) {
	clean := paths.Text(paths.Names(text), "")
	to, err := follow(clean, n, like)
	if to == clean {
		to = text
	}
	return to, err
}

// followSource returns where a path leads: its parents are followed, and the path itself if that is asked for.
func followSource(names []string, isFollowed bool, n *Node, like Rules) ([]string, error) {
	if like&Followed == 0 || !n.HasLinks() {
		return names, nil
	}
	resolve := links.Parents
	if isFollowed {
		resolve = links.Resolve
	}
	to, err := resolve(paths.Text(names, ""), n.target())
	return paths.Names(to), err
}

// followParents returns where the paths of an rm lead. Of a link that must be there the kernel looks for its target.
func followParents(found [][]string, n *Node, isSkipped bool, like Rules) ([][]string, error) {
	var out [][]string
	for _, names := range found {
		to, err := followSource(names, false, n, like)
		if err != nil {
			return nil, err
		}
		if like&Followed != 0 && !isSkipped && n.At(to).IsLink() {
			if err := checkTarget(to, n); err != nil {
				return nil, err
			}
		}
		out = append(out, to)
	}
	return out, nil
}

// checkTarget fails if the kernel does not find what a link leads to. It does not know the root of the tree, so what it finds at an
// absolute path, or above the root, depends on the host. That it finds a file in the way, or too many links, is no failure.
func checkTarget(link []string, n *Node) error {
	now, todo := []string{}, slices.Clone(link)
	for count := 0; len(todo) > 0; {
		name := todo[0]
		todo = todo[1:]
		switch name {
		case "", ".":
			continue
		case "..":
			if len(now) == 0 {
				return ErrHost
			}
			now = now[:len(now)-1]
			continue
		}
		next := below(now, name)
		switch one := n.At(next); {
		case one == nil:
			return fails("%s is missing", shown(next))
		case one.IsLink():
			target := one.Linkname()
			if path.IsAbs(target) {
				return ErrHost
			}
			if count++; count > links.MostOfKernel {
				return nil
			}
			todo = append(strings.Split(target, "/"), todo...)
		case !one.dir && len(todo) > 0:
			return nil
		default:
			now = next
		}
	}
	return nil
}

// Follow returns where a path leads in a tree in BuildKit.
func Follow(text string, n *Node) ([]string, error) {
	to, err := followClean(text, n, All)
	return paths.Names(to), err
}
