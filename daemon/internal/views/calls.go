package views

import (
	"fmt"
	"slices"

	"llbm/daemon/internal/paths"
	"llbm/daemon/internal/standins"
)

// A role is what a call does with a path.
type role int

const (
	read role = iota // also to change its mode
	written
)

// An applet is what a call of it does with its words: which of them are paths that are followed to their end, and what with those after them;
// or how it works on its paths, if it does more than that.
type applet struct {
	words map[int]role
	rest  bool // whether the words after these are read
	does  func(*call) bool
}

// applets has all applets of llbm.
var applets = map[string]applet{
	"true":    {},
	"false":   {},
	"mkdir":   {does: (*call).mkdir},
	"rm":      {does: (*call).rm},
	"write":   {words: map[int]role{1: written}},
	"append":  {words: map[int]role{1: written}},
	"cp":      {does: (*call).cp},
	"concat":  {words: map[int]role{1: written}, rest: true},
	"chmod":   {words: map[int]role{2: read}},
	"test":    {words: map[int]role{2: read}},
	"listing": {words: map[int]role{1: read, 2: written}},
	"envfile": {words: map[int]role{1: written}},
	"sha256":  {words: map[int]role{1: read, 2: written}},
}

// role returns what is done with a word, if it is a path.
func (a applet) role(word int) (role, bool) {
	how, isPath := a.words[word]
	return how, isPath || a.rest && word > len(a.words)
}

// call replaces the paths of a call, and does what it does to the view. It returns whether it could.
func (r *resolver) call(script standins.Script, number int, words []string) bool {
	if len(words) < 2 {
		return true
	}
	c := &call{r, script, number, words, paths.Names(r.exec.Meta.Cwd)}
	one := applets[words[0]]
	if one.does != nil {
		return one.does(c)
	}
	var made [][]string
	for word := 1; word < len(words); word++ {
		how, isPath := one.role(word)
		if !isPath {
			continue
		}
		to, err := c.view.follow(c.cwd, words[word], true)
		if !c.set(word, to, err) {
			return false
		}
		if how == written && to.kind == missing {
			made = append(made, to.names)
		}
	}
	for _, one := range made {
		c.view.made(one, file)
	}
	return true
}

// A call is one whose paths are replaced.
type call struct {
	*resolver
	script standins.Script
	number int
	words  []string
	cwd    []string
}

// set replaces a word by the path to which it leads.
func (c *call) set(word int, to way, err error) bool {
	text, ok := c.found(fmt.Sprintf("command %d: ", c.number), c.cwd, c.words[word], to, err)
	if ok && !c.script.Set(c.number, word, text) {
		last := len(c.ways) - 1
		c.ways[last].To = ""
		return false
	}
	return ok
}

// mkdir takes no link at its end, and with -p only one that leads to a directory: of another one it fails here as well.
func (c *call) mkdir() bool {
	last, isWhole := len(c.words)-1, c.words[1] == "-p"
	to, err := c.view.follow(c.cwd, c.words[last], isWhole)
	if isWhole && to.dangling != nil {
		to.names = to.dangling
	}
	if !c.set(last, to, err) {
		return false
	}
	if to.dangling != nil {
		return true
	}
	for count := 1; count <= len(to.names); count++ {
		if is, _ := c.view.at(to.names[:count]); is == missing && (isWhole || count == len(to.names)) {
			c.view.made(to.names[:count], directory)
		}
	}
	return true
}

// rm removes a link, and not what it leads to.
func (c *call) rm() bool {
	to, err := c.view.follow(c.cwd, c.words[1], false)
	if !c.set(1, to, err) {
		return false
	}
	c.view.removed(to.names)
	return true
}

// cp reads what a link leads to, and puts it into a directory under the name that was given. Some programs write through a link that is
// there, and others replace it, so such a cp is left.
func (c *call) cp() bool {
	if len(c.words) != 3 {
		return true
	}
	from, err := c.view.follow(c.cwd, c.words[1], true)
	if !c.set(1, from, err) {
		return false
	}
	to, err := c.view.follow(c.cwd, c.words[2], true)
	target := to
	if err == nil && to.kind != directory {
		if end, _ := c.view.follow(c.cwd, c.words[2], false); end.kind == link {
			err = errLost
		}
	}
	if err == nil && (to.kind == directory || to.kind == unknown) {
		to, target, err = c.into(from, to)
	}
	if !c.set(2, to, err) {
		return false
	}
	if target.kind == missing {
		c.view.made(target.names, file)
	}
	return true
}

// into returns what is named for a cp into a directory, and where the file goes: the directory is named, unless what is copied has another
// name there.
func (c *call) into(from, to way) (named, target way, err error) {
	names := paths.Names(c.words[1])
	if len(names) == 0 {
		return to, to, nil
	}
	last := names[len(names)-1]
	target = to
	target.names = append(slices.Clone(to.names), last)
	target.kind, _ = c.view.at(target.names)
	switch {
	case target.kind == link || target.kind == lost:
		target.first = paths.Text(target.names, "")
		return target, target, errLost
	case len(from.names) > 0 && from.names[len(from.names)-1] == last:
		return to, target, nil
	case to.kind == unknown || target.kind == directory || target.kind == unknown:
		target.first = from.first
		return target, target, errLost
	}
	target.first = from.first
	return target, target, nil
}
