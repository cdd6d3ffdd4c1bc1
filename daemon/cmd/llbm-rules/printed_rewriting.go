package main

import (
	"context"
	"io"
	"os"
	"slices"
	"strings"

	"llbm/daemon/internal/graph"
	"llbm/daemon/internal/rewriting"
	"llbm/daemon/internal/rules"
)

func init() { words["rewrite"] = printRewritten }

// A change is what of a row was rewritten, in words; the last line has the definition instead.
type change struct {
	Row     int      `json:"row"`
	Changes []string `json:"changes"`
}

type definition struct {
	Definition []byte `json:"definition"`
}

// linked are the words for a row that only names others by their new digests.
const linked = "its inputs have new digests"

// printRewritten prints a definition on which BuildKit and llbm agree, as far as that is possible, after a line for each row that was
// changed. With trees of local sources (NAME=FILE, texts of trees) that is also what depends on trees.
func printRewritten(ctx context.Context, given []string, in io.Reader, out io.Writer) error {
	data, err := io.ReadAll(in)
	if err != nil {
		return err
	}
	var trees rewriting.Trees
	if len(given) > 0 {
		if trees, err = treesOf(ctx, given); err != nil {
			return err
		}
	}
	new, rows, relinked, err := rewriting.Bytes(ctx, data, trees)
	if err != nil {
		return refused{err}
	}
	all := map[int][]string{}
	for row, how := range rows {
		all[row] = how.Changes
	}
	for _, row := range relinked {
		all[row] = append(all[row], linked)
	}
	var lines []change
	for row, changes := range all {
		lines = append(lines, change{row, changes})
	}
	slices.SortFunc(lines, func(a, b change) int { return a.Row - b.Row })
	if err := printLines(out, lines); err != nil {
		return err
	}
	return printLines(out, []definition{{new}})
}

// A localTrees has the trees of local sources by name.
type localTrees map[string]*rules.Node

// Source returns the tree of a source as it is given, and as BuildKit's client sends it.
func (l localTrees) Source(ctx context.Context, v *graph.Vertex) (here, there *rules.Node, err error) {
	source := v.Op.GetSource()
	here = l[strings.TrimPrefix(source.GetIdentifier(), local)]
	if here == nil {
		return nil, nil, nil
	}
	if there, err = rules.Sent(ctx, source, here, rules.All); err != nil {
		return nil, nil, ctx.Err() // its filters are no patterns, so BuildKit's client fails
	}
	return here, there, nil
}

const local = "local://"

// treesOf reads the trees that words NAME=FILE name.
func treesOf(ctx context.Context, given []string) (localTrees, error) {
	l := localTrees{}
	for _, word := range given {
		name, path, ok := strings.Cut(word, "=")
		if !ok || name == "" {
			return nil, refuse("%q is not NAME=FILE", word)
		}
		var err error
		if l[name], err = readTree(ctx, path); err != nil {
			return nil, err
		}
	}
	return l, nil
}

func readTree(ctx context.Context, path string) (*rules.Node, error) {
	file, err := os.Open(path)
	if err != nil {
		return nil, refused{err}
	}
	defer file.Close()
	return rules.Read(ctx, file, nil)
}
