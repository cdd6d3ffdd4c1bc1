package rules

import (
	"strings"

	"llbm/daemon/internal/paths"
)

const (
	// mostOfPath is about how many bytes a path has on a system.
	mostOfPath = 4000
	// mostParts is more names than a path has in BuildKit or in llbm. It bounds what is done by other sets of rules.
	mostParts = 4096
)

// checkNames fails if a system has no such name.
func checkNames(path []string) error {
	for _, name := range path {
		if len(name) > paths.MostOfName || strings.IndexByte(name, 0) >= 0 {
			return fails("a name is too long, or has a byte 0")
		}
	}
	return nil
}

func bytesOf(path []string) int {
	count := len(path)
	for _, name := range path {
		count += len(name)
	}
	return count
}

// checkLength fails if a path is too long. Rule Length: in BuildKit one of more than about 4,000 bytes. Rule Names: in llbm
// one of more than 128 names.
func checkLength(path []string, like Rules) error {
	if like.Has(Length) && bytesOf(path) > mostOfPath {
		return fails("the path is too long")
	}
	if !like.Has(Names) && len(path) > paths.MostNames {
		return fails("a path has more than 128 names")
	}
	return nil
}

// checkFits fails unless all paths of a tree that is put at a path pass checkLength.
func checkFits(path []string, n *Node, like Rules) error {
	e := n.Extent()
	if like.Has(Length) && bytesOf(path)+e.Bytes > mostOfPath {
		return fails("a path is too long")
	}
	if !like.Has(Names) && len(path)+e.Names > paths.MostNames {
		return fails("a path has more than 128 names")
	}
	return nil
}

// read reads the text of a path. Rule Names: BuildKit takes control bytes and more than 128 names, and skips names that a
// `..` removes.
func read(text string, like Rules) ([]string, error) {
	if !like.Has(Names) && !paths.IsPath(text) {
		return nil, fails("a text is no path")
	}
	path := paths.Names(text)
	if len(path) > mostParts {
		return nil, fails("the path is too long")
	}
	if err := checkNames(path); err != nil {
		return nil, err
	}
	return path, checkLength(path, like)
}

// readOfMkdir reads the path of an mkdir. Rule MkdirPath: it is walked part by part, so also what a `..` removes must not be
// below a file.
func readOfMkdir(text string, base *Node, like Rules) ([]string, error) {
	path, err := read(text, like)
	if err != nil || !like.Has(MkdirPath) {
		return path, err
	}
	walked, nodes := []string{}, []*Node{base}
	for _, part := range strings.Split(text, "/") {
		last := len(nodes) - 1
		switch part {
		case "", ".":
		case "..":
			walked, nodes = walked[:max(0, last-1)], nodes[:max(1, last)]
		default:
			walked = append(walked, part)
			if err := checkNames([]string{part}); err != nil {
				return nil, err
			}
			if nodes[last] != nil && !nodes[last].dir {
				return nil, fails("%s is below a file", shown(walked))
			}
			nodes = append(nodes, nodes[last].Child(part))
		}
	}
	return path, nil
}
