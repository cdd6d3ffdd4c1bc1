package inputs

import (
	"path"
	"strings"

	"llbm/daemon/internal/contents"
	"llbm/daemon/internal/graph"
	"llbm/daemon/internal/rules"
	"llbm/daemon/internal/sources"
)

// mostOfOwners bounds a file in which names of owners are looked up.
const mostOfOwners = 1 << 20

// wanted says which contents the rewriting of a definition has to know.
type wanted struct {
	owners   bool // files with names of owners
	archives bool // whether a file is an archive
}

func wantedOf(g *graph.Graph) wanted {
	var w wanted
	for v := range g.Vertices {
		for _, action := range g.Vertices[v].Op.GetFile().GetActions() {
			w.owners = w.owners || len(rules.NamesOf(action)) > 0
			w.archives = w.archives || action.GetCopy().GetAttemptUnpackDockerCompatibility()
		}
	}
	return w
}

// isOfOwners is whether a file may be /etc/passwd or /etc/group, where it is or where it is copied to.
func isOfOwners(e *sources.Entry) bool {
	name := path.Base(e.Path)
	return e.Content.Size <= mostOfOwners && (strings.Contains(name, "passwd") || strings.Contains(name, "group"))
}

// note notes what the rewriting has to know of a content that has a token.
func (in *Inputs) note(e *sources.Entry, token []byte) error {
	if e.Link != "" {
		return nil // each link is noted once, by addLinks
	}
	one := rules.Given{Token: token}
	if in.wanted.owners && isOfOwners(e) {
		one.Text, one.IsText = make([]byte, e.Content.Size), true
		if _, err := e.Content.ReadAt(one.Text, 0); err != nil {
			return err
		}
	}
	one.IsArchive = in.wanted.archives && e.IsArchive()
	if one.IsText || one.IsArchive {
		in.Known = append(in.Known, one)
	}
	return nil
}

// addLinks notes the links of all sources.
func (in *Inputs) addLinks(table *contents.Table) {
	for token, target := range table.Links() {
		in.Known = append(in.Known, rules.Given{Token: []byte(token), Target: []byte(target)})
	}
}
