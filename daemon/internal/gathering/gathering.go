// Package gathering fetches the sources of a definition, each once in a build: from clients' sessions, and of images that are there.
package gathering

import (
	"context"
	"fmt"
	"regexp"
	"slices"

	"github.com/moby/buildkit/solver/pb"
	"golang.org/x/sync/errgroup"
	"google.golang.org/grpc/codes"
	"google.golang.org/grpc/status"
	"llbm/daemon/internal/builds"
	"llbm/daemon/internal/graph"
	"llbm/daemon/internal/images"
	"llbm/daemon/internal/progress"
	"llbm/daemon/internal/rules"
	"llbm/daemon/internal/sources"
)

// plain are the names that can be given to llbm as NAME=FILE as they are.
var plain = regexp.MustCompile(`^[A-Za-z0-9_.][A-Za-z0-9_./-]*$`)

// An Input is one source: a name in a session, with the client's filters, or an image, or what an archive unpacks to. Several vertices
// may name it.
type Input struct {
	Given    string // the name that llbm knows it by
	Vertices []int
	Manifest *sources.Manifest
	Folders  map[string]rules.Folder // of what an archive unpacks to
	request  sources.Request
	session  string
	key      sources.Key
	base     bool   // whether something builds on it
	pulled   Pulled // the image in the place of a local source, if it is one
}

// Inputs are the sources of a definition.
type Inputs struct {
	All     []*Input
	byKey   map[sources.Key]*Input
	names   map[string]bool // that llbm knows sources by
	build   *builds.Build
	renamed bool
}

func sessionOf(b *builds.Build, source *pb.SourceOp) string {
	if id := source.Attrs[pb.AttrLocalSessionID]; id != "" {
		return id
	}
	return b.Session
}

// Name returns the name that the client knows the source by.
func (one *Input) Name() string { return one.request.Name }

// What returns what the source is, for a person.
func (one *Input) What() string {
	if one.pulled.Image != nil {
		return "image " + one.pulled.Image.Name
	}
	return "local source " + one.request.Name
}

// A Pulled is the image in the place of a source, or why it can't be read; it has neither for a source that is no image.
type Pulled struct {
	Image *images.Image
	Err   error
}

// Images are those of a definition, by the rows of their sources.
type Images map[int]Pulled

// Close closes the images.
func (i Images) Close() {
	for _, one := range i {
		if one.Image != nil {
			one.Image.Close()
		}
	}
}

// A gatherer fetches the sources of a definition.
type gatherer struct {
	*builds.Shared
	b *builds.Build
	p *progress.Progress
}

// Gather fetches the sources of a graph, all at once: the images, by their rows, and the others from sessions. Each is fetched once in a
// build. The caller has to close them.
func Gather(ctx context.Context, g *graph.Graph, p *progress.Progress, found Images) (*Inputs, error) {
	in, err := namedBy(g, p, found)
	if err != nil {
		return nil, err
	}
	s := &gatherer{p.Build.Shared, p.Build, p}
	group, ctx := errgroup.WithContext(ctx)
	for _, one := range in.All {
		group.Go(func() (err error) {
			one.Manifest, err = s.fetch(ctx, one)
			return err
		})
	}
	if err := group.Wait(); err != nil {
		in.Close()
		return nil, err
	}
	return in, nil
}

// namedBy returns the sources that a graph names, with the names that llbm gets, before they are fetched.
func namedBy(g *graph.Graph, p *progress.Progress, found Images) (*Inputs, error) {
	in := &Inputs{byKey: map[sources.Key]*Input{}, names: map[string]bool{}, build: p.Build}
	bases := bases(g)
	for v := range g.Vertices {
		source := g.Vertices[v].Op.GetSource()
		if source == nil {
			continue
		}
		if !sources.IsLocal(source) {
			return nil, status.Errorf(codes.Unimplemented, "llbm: fault 88 %d Source", g.Vertices[v].Row) // as llbm is about to say
		}
		request, err := sources.RequestOf(source)
		if err != nil {
			return nil, p.Failed(v, err)
		}
		one := in.of(request, sessionOf(p.Build, source))
		if one.pulled = found[g.Vertices[v].Row]; one.pulled.Err != nil {
			return nil, p.Failed(v, one.pulled.Err)
		}
		one.Vertices = append(one.Vertices, v)
		one.base = one.base || bases[v]
	}
	for i, one := range in.All {
		if one.Given == "" {
			one.Given, in.renamed = in.newName("source", i), true
		}
	}
	return in, nil
}

// Add adds a source that no client sends, of a kind. It has a manifest, and what an archive unpacks to has folders.
func (in *Inputs) Add(kind, name string, manifest *sources.Manifest, folders map[string]rules.Folder) *Input {
	one := &Input{Given: in.newName(kind, 1), Manifest: manifest, Folders: folders, request: sources.Request{Name: name}}
	in.All = append(in.All, one)
	return one
}

// newName returns a name that llbm knows no source by yet, with a number from some one on.
func (in *Inputs) newName(kind string, number int) string {
	for ; ; number++ {
		if name := fmt.Sprintf("%s-%d", kind, number); !in.names[name] {
			in.names[name] = true
			return name
		}
	}
}

// of returns the source of a request to a session. The first one of a name keeps it, if it is one that llbm can be given.
func (in *Inputs) of(request sources.Request, session string) *Input {
	key := request.Key(session)
	if one, ok := in.byKey[key]; ok {
		return one
	}
	one := &Input{Given: request.Name, request: request, session: session, key: key}
	if in.names[request.Name] || !plain.MatchString(request.Name) {
		one.Given = ""
	}
	in.names[request.Name] = true
	in.byKey[key] = one
	in.All = append(in.All, one)
	return one
}

// fetch returns a source of a build with a hold of it.
func (s *gatherer) fetch(ctx context.Context, one *Input) (*sources.Manifest, error) {
	v, key := one.Vertices[0], one.key
	if image := one.pulled.Image; image != nil {
		key = sources.KeyOfImage(image.Key())
	}
	manifest, isNew, err := s.b.Sources.Get(key, func() (*sources.Manifest, error) { return s.transfer(ctx, one) })
	if err != nil {
		return nil, s.p.Failed(v, err)
	}
	if isNew {
		s.b.OnEnd(manifest.Drop)
	} else if one.base && one.pulled.Image == nil {
		s.forget(ctx, one)
	}
	return manifest, nil
}

// forget lets a source be read anew in the next build, if an earlier definition of this build had it as no base.
func (s *gatherer) forget(ctx context.Context, one *Input) {
	if caller, err := s.Sessions.Get(ctx, s.b.User, one.session); err == nil {
		s.Keeper.Forget(s.b.User, caller, one.request)
	}
}

// transfer fetches a source, and shows what is to be known of it.
func (s *gatherer) transfer(ctx context.Context, one *Input) (*sources.Manifest, error) {
	get := s.receive
	if one.pulled.Image != nil {
		get = s.unpack
	}
	manifest, err := get(ctx, one)
	if err != nil {
		return nil, err
	}
	v := one.Vertices[0]
	if manifest.Left > 0 {
		s.p.Warn(v, fmt.Sprintf("%s: %d entries are left out, as llbm has only directories, files and links", one.What(), manifest.Left), manifest.LeftOut)
	}
	if manifest.Attributed > 0 {
		text := fmt.Sprintf("%s: extended attributes are lost, which BuildKit keeps: of /%s", one.What(), manifest.FirstAttributed)
		if more := manifest.Attributed - 1; more > 0 {
			text += fmt.Sprintf(" and %d more", more)
		}
		s.p.Warn(v, text, nil)
	}
	if len(manifest.Removed) > 0 {
		text := fmt.Sprintf("%s: %s is of the layer that removes it: it stays, and BuildKit can remove it", one.What(), manifest.Removed[0])
		s.p.Warn(v, text, manifest.Removed)
	}
	if manifest.EmptiedCount > 0 {
		text := fmt.Sprintf("%s: the client sent no byte of %s: it is empty, as in BuildKit", one.What(), manifest.Emptied[0])
		if more := manifest.EmptiedCount - 1; more > 0 {
			text += fmt.Sprintf("; so are %d more", more)
		}
		s.p.Warn(v, text, manifest.Emptied)
	}
	return manifest, nil
}

// receive fetches a source from its session.
func (s *gatherer) receive(ctx context.Context, one *Input) (*sources.Manifest, error) {
	caller, err := s.Sessions.Get(ctx, s.b.User, one.session)
	if err != nil {
		return nil, err
	}
	name, v := one.request.Name, one.Vertices[0]
	bar := s.p.Bar(v, "transferring "+name+":")
	manifest, err := s.Keeper.Fetch(ctx, s.b.User, caller, sources.Transfer{Request: one.request, Anew: one.base, Progress: bar.At, Hold: s.b.Hold})
	if err != nil {
		return nil, err
	}
	bar.Done(manifest.Sent)
	if manifest.Unread > 0 {
		s.p.Log(v, 1, fmt.Sprintf("local source %s: %d of its files were not read: their sizes and times are as in an earlier build", name, manifest.Unread))
	}
	return manifest, nil
}

// unpack returns the tree of an image, which is read if it is not kept.
func (s *gatherer) unpack(ctx context.Context, one *Input) (*sources.Manifest, error) {
	image, v := one.pulled.Image, one.Vertices[0]
	return s.Keeper.Image(s.b.User, image.Name, image.Manifest.String(), func() (*sources.Manifest, error) {
		bar := s.p.Bar(v, "unpacking "+image.Name+":")
		manifest, err := image.Read(ctx, s.Keeper.Store(), sources.Options{LeaveOut: s.Keeper.LeavesOut(), Progress: bar.At, Hold: s.b.Hold})
		if err == nil {
			bar.Done(manifest.Sent)
		}
		return manifest, err
	})
}

// At returns the source of a vertex, or nil if it is none.
func (in *Inputs) At(v int) *Input {
	for _, one := range in.All {
		if slices.Contains(one.Vertices, v) {
			return one
		}
	}
	return nil
}

// HasLinks is whether a source has a symbolic link.
func (in *Inputs) HasLinks() bool {
	for _, one := range in.All {
		if one.Manifest.FirstLink != "" {
			return true
		}
	}
	return false
}

// Close gives up the holds of the sources.
func (in *Inputs) Close() {
	for _, one := range in.All {
		if one.Manifest != nil {
			one.Manifest.Drop()
		}
	}
}

// Named returns the graph with the names that llbm gets of the sources, which is the same but for names.
func (in *Inputs) Named(g *graph.Graph) (*graph.Graph, error) {
	if !in.renamed {
		return g, nil
	}
	def, err := in.rename(g.Def)
	if err != nil {
		return nil, err
	}
	if g, err = graph.Load(def, g.Sent); err != nil {
		return nil, status.Errorf(codes.Internal, "%v", err)
	}
	return g, nil
}

// rename gives each source that shares its name with another one, or whose name is no word, a name of its own.
func (in *Inputs) rename(def *pb.Definition) (*pb.Definition, error) {
	if !in.renamed {
		return def, nil
	}
	return graph.Rewrite(def, func(_ int, op *pb.Op) (bool, error) {
		source := op.GetSource()
		if source == nil || !sources.IsLocal(source) {
			return false, nil
		}
		request, err := sources.RequestOf(source)
		if err != nil {
			return false, nil // the result does not depend on this one: those that it depends on were read before
		}
		one, ok := in.byKey[request.Key(sessionOf(in.build, source))]
		if !ok || one.Given == request.Name {
			return false, nil
		}
		source.Identifier = sources.Scheme + one.Given
		return true, nil
	})
}
