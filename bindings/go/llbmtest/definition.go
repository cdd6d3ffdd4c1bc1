package llbmtest

import (
	"bytes"
	"context"
	"encoding/json"
	"fmt"
	"strings"
	"testing"

	"github.com/moby/buildkit/client/llb"
	"github.com/moby/buildkit/solver/pb"
	"github.com/opencontainers/go-digest"
	"github.com/tonistiigi/fsutil"
)

const (
	localScheme = "local://"
	imageScheme = "docker-image://"
	// standIn begins the names of local sources in the place of images; no frontend names a source so.
	standIn = "llbmtest image "
)

// A solving is a graph with the trees of its sources, by name.
type solving struct {
	definition []byte
	trees      map[string]string
}

// prepare reads a graph, puts local sources in the place of images, and reads the sources that it has.
func prepare(t testing.TB, graph any, sources []Source) *solving {
	t.Helper()
	definition, err := definitionOf(graph)
	if err != nil {
		t.Fatal(err)
	}
	s := &solving{trees: map[string]string{}}
	unused := map[string]bool{}
	for _, one := range sources {
		unused[one.what()] = true
	}
	changed := map[string]string{} // digests
	for i, entry := range definition.Def {
		var op pb.Op
		if err := op.Unmarshal(entry); err != nil {
			t.Fatalf("entry %d of the definition is no op: %v", i, err)
		}
		isChanged := renameInputs(&op, changed)
		if source := op.GetSource(); source != nil {
			replaced, err := s.takeSource(t, source, sources, unused)
			if err != nil {
				t.Fatal(err)
			}
			isChanged = isChanged || replaced
		}
		if isChanged {
			made, err := op.Marshal()
			if err != nil {
				t.Fatal(err)
			}
			changed[string(digest.FromBytes(entry))] = string(digest.FromBytes(made))
			definition.Def[i] = made
		}
	}
	for what := range unused {
		t.Errorf("the graph has no %s", what)
	}
	if s.definition, err = definition.Marshal(); err != nil {
		t.Fatal(err)
	}
	return s
}

// definitionOf returns the message of a graph, with entries that can be changed.
func definitionOf(graph any) (*pb.Definition, error) {
	switch graph := graph.(type) {
	case llb.State:
		definition, err := graph.Marshal(context.Background())
		if err != nil {
			return nil, err
		}
		return definition.ToPB(), nil
	case *llb.Definition:
		return copyOf(graph.ToPB())
	case *pb.Definition:
		return copyOf(graph)
	}
	return nil, fmt.Errorf("a graph is an llb.State, a *llb.Definition or a *pb.Definition, not a %T", graph)
}

// copyOf returns a definition with the entries of another one, and without metadata, which has no effect on what is made.
func copyOf(definition *pb.Definition) (*pb.Definition, error) {
	if definition == nil {
		return nil, fmt.Errorf("the definition is nil")
	}
	made := &pb.Definition{}
	for _, entry := range definition.Def {
		made.Def = append(made.Def, bytes.Clone(entry))
	}
	return made, nil
}

// renameInputs changes the digests of inputs whose entries were changed, and returns whether there is one.
func renameInputs(op *pb.Op, changed map[string]string) bool {
	isChanged := false
	for _, input := range op.Inputs {
		if to, ok := changed[string(input.Digest)]; ok {
			isChanged = true
			rename(&input.Digest, to)
		}
	}
	return isChanged
}

// rename sets a digest, whose type is another one in newer clients.
func rename[D ~string](at *D, to string) { *at = D(to) }

// takeSource reads the tree of a source, and returns whether a local source takes the place of an image.
func (s *solving) takeSource(t testing.TB, op *pb.SourceOp, sources []Source, unused map[string]bool) (bool, error) {
	t.Helper()
	for _, one := range sources {
		isIt, err := one.is(op.Identifier)
		if err != nil {
			return false, err
		}
		if !isIt {
			continue
		}
		delete(unused, one.what())
		filters := &fsutil.FilterOpt{}
		if !one.isImage {
			if filters, err = filtersOf(op); err != nil {
				return false, err
			}
		}
		tree, err := one.tree(t, filters)
		if err != nil {
			return false, fmt.Errorf("%s: %w", one.what(), err)
		}
		return one.isImage, s.put(op, one, tree.Text())
	}
	return false, nil
}

// is tells whether a source is for an identifier.
func (s Source) is(identifier string) (bool, error) {
	if !s.isImage {
		return identifier == localScheme+s.name, nil
	}
	ref, ok := strings.CutPrefix(identifier, imageScheme)
	if !ok {
		return false, nil
	}
	there, err := nameOfImage(ref)
	if err != nil {
		return false, err
	}
	name, err := nameOfImage(s.name)
	return name == there, err
}

// put keeps the tree of a source under its name. A name has one tree, so its filters have to select the same wherever it is used.
func (s *solving) put(op *pb.SourceOp, one Source, text string) error {
	name := one.name
	if one.isImage {
		name = standIn + one.name
		op.Identifier, op.Attrs = localScheme+name, nil
	}
	if before, ok := s.trees[name]; ok && before != text {
		return fmt.Errorf("the graph has several %ss with filters that select otherwise; llbmtest has one tree for each name", one.what())
	}
	s.trees[name] = text
	return nil
}

// filtersOf returns the filters of a local source.
func filtersOf(op *pb.SourceOp) (*fsutil.FilterOpt, error) {
	found := &fsutil.FilterOpt{}
	for key, to := range map[string]*[]string{
		pb.AttrIncludePatterns: &found.IncludePatterns,
		pb.AttrExcludePatterns: &found.ExcludePatterns,
		pb.AttrFollowPaths:     &found.FollowPaths,
	} {
		if value := op.Attrs[key]; value != "" {
			if err := json.Unmarshal([]byte(value), to); err != nil {
				return nil, fmt.Errorf("%s: %s is no list of texts", op.Identifier, key)
			}
		}
		if len(*to) == 0 {
			*to = nil
		}
	}
	return found, nil
}
