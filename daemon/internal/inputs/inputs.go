// Package inputs makes the inputs of a run of the sources of its definition: they are gathered, get the names that llbm knows, archives
// are unpacked, and their trees are written as texts. It says what BuildKit's rules have to know of them that no text has.
package inputs

import (
	"context"
	"io"
	"iter"
	"slices"
	"strings"

	"llbm/daemon/internal/contents"
	"llbm/daemon/internal/gathering"
	"llbm/daemon/internal/graph"
	"llbm/daemon/internal/machine"
	"llbm/daemon/internal/plan"
	"llbm/daemon/internal/progress"
	"llbm/daemon/internal/rules"
	"llbm/daemon/internal/sources"
	"llbm/daemon/internal/unpacking"
)

// Inputs are the sources of a definition, with their texts.
type Inputs struct {
	Known    []rules.Given // what is known of contents that have tokens
	gathered *gathering.Inputs
	wanted   wanted
	texts    []machine.Source // in the order of the sources
	table    *contents.Table  // of the tokens; nil if there are none, or if it has been taken
	count    func(n int) error
	free     func(n int)
	held     int // the bytes of texts that count as the build's
}

// Make makes the inputs of a plan's graph: the images that were found for sources, by their rows, and what sessions have. It returns them
// with the graph that has the names of the sources that llbm knows. A literal definition unpacks no archives. The caller has to close the
// inputs.
func Make(plan *plan.Plan, g *graph.Graph, p *progress.Progress, found gathering.Images, literal bool) (*Inputs, *graph.Graph, error) {
	gathered, err := gathering.Gather(plan.Context, g, p, found)
	if err != nil {
		return nil, nil, err
	}
	in := &Inputs{gathered: gathered, count: p.Build.Hold, free: p.Build.Free}
	if g, err = in.prepare(plan.Context, g, p, literal); err == nil {
		err = in.writeTexts(plan, g)
	}
	if err != nil {
		in.Close()
		return nil, nil, err
	}
	return in, g, nil
}

// prepare returns the graph with the names that llbm knows, and without archives that are unpacked.
func (in *Inputs) prepare(ctx context.Context, g *graph.Graph, p *progress.Progress, literal bool) (*graph.Graph, error) {
	g, err := in.gathered.Named(g)
	if err != nil {
		return nil, err
	}
	p.Change(g)
	if literal || !g.Canonical || !wantedOf(g).archives {
		return g, nil
	}
	return unpacking.Unpack(ctx, g, in.gathered, p)
}

// Close gives up the holds of the sources and of their texts, which are closed, and the table of tokens, unless it has been taken.
func (in *Inputs) Close() {
	in.closeTexts()
	in.table.Close()
	in.free(in.held)
	in.gathered.Close()
}

func (in *Inputs) closeTexts() {
	for _, text := range in.texts {
		_ = text.Text.Close()
	}
	in.texts = nil
}

// TakeTable returns the table of the contents that tokens stand for, or nil if there are no tokens. It is the caller's from now on.
func (in *Inputs) TakeTable() *contents.Table {
	table := in.table
	in.table = nil
	return table
}

// AreEqual is whether two files have the same content, by what their trees have of it.
func (in *Inputs) AreEqual(text, other []byte) bool { return in.table.AreEqual(text, other) }

// HasLinks is whether a source has a symbolic link.
func (in *Inputs) HasLinks() bool { return in.gathered.HasLinks() }

// Texts returns the texts of the sources that a graph needs, which may be fewer than were gathered.
func (in *Inputs) Texts(g *graph.Graph) []machine.Source {
	needed := map[string]bool{}
	for v := range g.Vertices {
		if source := g.Vertices[v].Op.GetSource(); source != nil {
			needed[strings.TrimPrefix(source.Identifier, sources.Scheme)] = true
		}
	}
	return slices.DeleteFunc(slices.Clone(in.texts), func(one machine.Source) bool { return !needed[one.Name] })
}

// A Source is what BuildKit's rules have to know of the source of a vertex.
type Source struct {
	Text    string                  // the path of the file with the text of its tree
	Linked  []string                // the files that have other names, which are hard links
	Folders map[string]rules.Folder // of what an archive unpacks to
}

// Sources yields the sources by the entries of the graph that they were made of.
func (in *Inputs) Sources(g *graph.Graph) iter.Seq2[int, Source] {
	return func(yield func(int, Source) bool) {
		for i, one := range in.gathered.All {
			source := Source{machine.PathOf(in.texts[i].Text), slices.Concat(one.Manifest.HardLinks()...), one.Folders}
			for _, v := range one.Vertices {
				if !yield(g.Vertices[v].Place, source) {
					return
				}
			}
		}
	}
}

// Kept yields the names of the sources, with functions that write their trees as texts that can be kept. A source that is too long for a
// text by value has tokens.
func (in *Inputs) Kept() iter.Seq2[string, func(to io.Writer) error] {
	return func(yield func(string, func(to io.Writer) error) bool) {
		for _, one := range in.gathered.All {
			if !yield(one.Given, func(to io.Writer) error { return keep(one.Manifest, to) }) {
				return
			}
		}
	}
}

func keep(manifest *sources.Manifest, to io.Writer) error {
	if manifest.Bytes <= mostOfText/2 {
		return manifest.WriteByValue(to, nil, true)
	}
	table := contents.NewTable()
	defer table.Close()
	return manifest.WriteByReference(to, table, nil)
}
