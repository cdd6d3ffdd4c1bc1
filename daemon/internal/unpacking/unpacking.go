// Package unpacking puts copies of what archives unpack to in the place of copies that unpack them. What an archive unpacks to is a source.
package unpacking

import (
	"context"
	"io"
	"path"
	"slices"
	"strings"

	"github.com/moby/buildkit/solver/pb"
	digest "github.com/opencontainers/go-digest"
	"google.golang.org/grpc/codes"
	"google.golang.org/grpc/status"
	"llbm/daemon/internal/contents"
	"llbm/daemon/internal/gathering"
	"llbm/daemon/internal/graph"
	"llbm/daemon/internal/images"
	"llbm/daemon/internal/progress"
	"llbm/daemon/internal/rules"
	"llbm/daemon/internal/sources"
)

const (
	nothing  = pb.InputIndex(-1)
	noOutput = pb.OutputIndex(-1)
	newMode  = 0o755
	keptMode = -1
)

// An archiveSource is a source that has what an archive unpacks to, as an entry of a definition.
type archiveSource struct {
	input   *gathering.Input
	folders []images.Folder
	entry   []byte
}

// An unpacking puts sources of what archives unpack to beside a definition, and copies of these in the place of copies that unpack them.
type unpacking struct {
	ctx    context.Context
	keeper *sources.Keeper
	hold   func(n int) error
	in     *gathering.Inputs
	g      *graph.Graph
	trees  map[*gathering.Input]*rules.Node
	done   map[string]*archiveSource // by source and path
	extra  []*archiveSource
	// further has for each of these the row that needs it, and actions for each row the action of which each new one is a part.
	further []int
	actions map[int][]int
}

// Unpack returns a graph in which copies that unpack archives of sources copy what these unpack to, which are further sources. BuildKit
// makes the same of it. Other such copies stay, and are refused.
func Unpack(ctx context.Context, g *graph.Graph, in *gathering.Inputs, p *progress.Progress) (*graph.Graph, error) {
	u := &unpacking{
		ctx: ctx, keeper: p.Build.Shared.Keeper, hold: p.Build.Hold, in: in, g: g, trees: map[*gathering.Input]*rules.Node{}, done: map[string]*archiveSource{},
		actions: map[int][]int{},
	}
	ops := map[int]*pb.Op{}
	for v := range g.Vertices {
		made, err := u.op(v)
		if err != nil {
			return nil, p.Failed(v, err)
		}
		if made != nil {
			ops[g.Vertices[v].Row] = made
		}
	}
	if len(ops) == 0 {
		return g, nil
	}
	after, err := u.graph(ops)
	if err != nil {
		return nil, err
	}
	u.renumber(after)
	p.ChangeUnpacked(after, u.actions)
	return after, nil
}

// graph returns the graph with other ops in some rows, and with the further sources.
func (u *unpacking) graph(ops map[int]*pb.Op) (*graph.Graph, error) {
	made, err := graph.Rewrite(u.g.Def, func(row int, op *pb.Op) (bool, error) {
		if new := ops[row]; new != nil {
			op.Op, op.Inputs = new.Op, new.Inputs
		}
		return ops[row] != nil, nil
	})
	if err != nil {
		return nil, err
	}
	last := len(made.Def) - 1
	entries := slices.Clone(made.Def[:last])
	for _, one := range u.extra {
		entries = append(entries, one.entry)
	}
	made.Def = append(entries, made.Def[last])
	after, err := graph.Load(made, u.g.Sent, u.further...)
	if err != nil {
		return nil, status.Errorf(codes.Internal, "%v", err)
	}
	return after, nil
}

// renumber gives the sources the numbers of their vertices in another graph.
func (u *unpacking) renumber(after *graph.Graph) {
	for _, one := range u.in.All {
		for i, v := range one.Vertices {
			one.Vertices[i], _ = after.Find(u.g.Vertices[v].Row)
		}
	}
	for v := range after.Vertices {
		for _, one := range u.extra {
			if after.Vertices[v].Op.GetSource().GetIdentifier() == sources.Scheme+one.input.Given {
				one.input.Vertices = append(one.input.Vertices, v)
			}
		}
	}
}

// op returns the op of a vertex with what its copies unpack, or nil if none does.
func (u *unpacking) op(v int) (*pb.Op, error) {
	it := &u.g.Vertices[v]
	file := it.Op.GetFile()
	found := map[int][]addedSource{}
	needed := []*archiveSource{}
	for number, action := range file.GetActions() {
		all, err := u.sourcesOf(v, action)
		if err != nil {
			return nil, err
		}
		for _, one := range all {
			if one.archive != nil && !slices.Contains(needed, one.archive) {
				needed = append(needed, one.archive)
			}
		}
		if len(all) > 0 {
			found[number] = all
		}
	}
	if len(needed) == 0 {
		return nil, nil
	}
	w := &writer{before: len(it.Op.Inputs), count: len(it.Op.Inputs) + len(needed), place: map[int]pb.InputIndex{}, needed: needed}
	for number, action := range file.Actions {
		w.action(number, action, found[number])
	}
	op := *it.Op
	for _, one := range needed {
		if !slices.Contains(u.extra, one) {
			u.extra, u.further = append(u.extra, one), append(u.further, it.Row)
		}
		op.Inputs = append(slices.Clone(op.Inputs), &pb.Input{Digest: digest.FromBytes(one.entry)})
	}
	op.Op = &pb.Op_File{File: &pb.FileOp{Actions: w.new}}
	u.actions[it.Row] = w.from
	return &op, nil
}

// An addedSource is what a copy copies: an archive that it unpacks, or what is at a path.
type addedSource struct {
	path    string
	archive *archiveSource
}

// sourcesOf returns what a copy copies, if an archive is among it.
func (u *unpacking) sourcesOf(v int, action *pb.FileAction) ([]addedSource, error) {
	c, it := action.GetCopy(), &u.g.Vertices[v]
	second := int(action.SecondaryInput)
	if !c.GetAttemptUnpackDockerCompatibility() || !c.CreateDestPath || second < 0 || second >= len(it.Inputs) {
		return nil, nil
	}
	from := u.in.At(it.Inputs[second])
	if from == nil {
		return nil, nil
	}
	tree, err := u.tree(from)
	if err != nil || tree == nil {
		return nil, err
	}
	found, err := rules.Sources(u.ctx, c, tree, rules.All)
	if err != nil {
		return nil, u.ctx.Err() // it copies nothing
	}
	var all []addedSource
	hasArchive := false
	for _, one := range found {
		at := "/" + strings.Join(one.Path, "/")
		if to, err := rules.Follow(at, tree); err == nil && tree.IsArchive(to) {
			archive, err := u.archive(from, strings.Join(to, "/"))
			if err != nil {
				return nil, err
			}
			all, hasArchive = append(all, addedSource{at, archive}), true
			continue
		}
		if path.Base(at) != one.Name {
			return nil, nil // it has another name where a link leads to it
		}
		all = append(all, addedSource{at, nil})
	}
	if !hasArchive {
		return nil, nil
	}
	return all, nil
}

// tree returns the tree of a source with its archives and links, or nil if it has no archive.
func (u *unpacking) tree(from *gathering.Input) (*rules.Node, error) {
	if found, ok := u.trees[from]; ok {
		return found, nil
	}
	isArchive := map[string]bool{}
	for i := range from.Manifest.Entries {
		if err := u.ctx.Err(); err != nil {
			return nil, err
		}
		if e := &from.Manifest.Entries[i]; !e.Dir && e.Link == "" && e.IsArchive() {
			isArchive[e.Path] = true
		}
	}
	if len(isArchive) == 0 {
		u.trees[from] = nil
		return nil, nil
	}
	table, known := contents.NewTable(), rules.Known{}
	defer table.Close()
	entries := from.Manifest.ByReference(table, func(e *sources.Entry, token []byte) error {
		if e.Link != "" || isArchive[e.Path] {
			known[string(token)] = &rules.Given{Token: token, Target: []byte(e.Link), IsArchive: isArchive[e.Path]}
		}
		return nil
	})
	var err error
	u.trees[from], err = rules.Reader{Known: known}.Take(u.ctx, entries)
	return u.trees[from], err
}

// archive returns the source of what an archive unpacks to.
func (u *unpacking) archive(from *gathering.Input, at string) (*archiveSource, error) {
	key := from.Given + "/" + at
	if found := u.done[key]; found != nil {
		return found, nil
	}
	content, ok := from.Manifest.Content(at)
	if !ok {
		return nil, status.Errorf(codes.Internal, "%s has no file %s", from.What(), at)
	}
	options := sources.Options{Name: at, What: "the archive /" + at, LeaveOut: u.keeper.LeavesOut(), Hold: u.hold}
	manifest, folders, err := images.Archive(u.ctx, u.keeper.Store(), io.NewSectionReader(content, 0, content.Size), options)
	if err != nil {
		return nil, err
	}
	one := &archiveSource{input: u.in.Add("archive", at, manifest, foldersOf(folders)), folders: folders}
	source := &pb.Op{Op: &pb.Op_Source{Source: &pb.SourceOp{Identifier: sources.Scheme + one.input.Given}}}
	if one.entry, err = source.Marshal(); err != nil {
		return nil, err
	}
	u.done[key] = one
	return one, nil
}

// foldersOf returns what the rules know of folders, by their names.
func foldersOf(all []images.Folder) map[string]rules.Folder {
	found := map[string]rules.Folder{}
	for _, one := range all {
		found[one.Name] = rules.Folder{Names: one.Depth(), Own: one.Own, Late: rules.LateOf(one.Late)}
	}
	return found
}
