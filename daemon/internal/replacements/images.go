package replacements

import (
	"context"
	"fmt"
	"path"
	"slices"
	"strings"

	"github.com/containerd/containerd/platforms"
	sessioncontent "github.com/moby/buildkit/session/content"
	"github.com/moby/buildkit/solver/pb"
	"github.com/moby/buildkit/sourcepolicy"
	spb "github.com/moby/buildkit/sourcepolicy/pb"
	digest "github.com/opencontainers/go-digest"
	ocispecs "github.com/opencontainers/image-spec/specs-go/v1"
	"google.golang.org/grpc/codes"
	"google.golang.org/grpc/status"
	"llbm/daemon/internal/builds"
	"llbm/daemon/internal/gathering"
	"llbm/daemon/internal/graph"
	"llbm/daemon/internal/images"
	"llbm/daemon/internal/sources"
)

const (
	schemeOfImages  = "docker-image://"
	schemeOfLayouts = "oci-layout://"
)

// pull returns a definition with a local source in the place of each image that is there, and these images. llbm refuses the others.
func (r *Replacer) pull(ctx context.Context, b *builds.Build, def *pb.Definition) (*pb.Definition, gathering.Images, error) {
	found, names := gathering.Images{}, newNames(def)
	def, err := graph.Rewrite(def, func(row int, op *pb.Op) (bool, error) {
		source := op.GetSource()
		if source == nil || !isImage(source) {
			return false, nil
		}
		image, err := r.find(ctx, b, source, op.Platform)
		if image == nil && err == nil {
			return false, nil
		}
		found[row] = gathering.Pulled{Image: image, Err: err}
		op.Op = &pb.Op_Source{Source: &pb.SourceOp{Identifier: sources.Scheme + names.of(op, source)}}
		return true, nil
	})
	if err != nil {
		found.Close()
		return nil, nil, err
	}
	return def, found, nil
}

func isImage(source *pb.SourceOp) bool {
	return strings.HasPrefix(source.GetIdentifier(), schemeOfImages) || strings.HasPrefix(source.GetIdentifier(), schemeOfLayouts)
}

// names are those of a definition's local sources, with new ones for its images.
type names struct {
	taken map[string]bool
	given map[string]string // by what tells two images apart
}

func newNames(def *pb.Definition) *names {
	n := &names{taken: map[string]bool{}, given: map[string]string{}}
	for _, entry := range def.Def {
		var op pb.Op
		if op.Unmarshal(entry) == nil && op.GetSource() != nil {
			n.taken[strings.TrimPrefix(op.GetSource().Identifier, sources.Scheme)] = true
		}
	}
	return n
}

// of returns the name of an image, as llbm-tools adopt makes them: its last part, without a tag and a digest, and with a number if it is taken.
func (n *names) of(op *pb.Op, source *pb.SourceOp) string {
	key := fmt.Sprintf("%q %v %q %q", source.Identifier, op.Platform, source.Attrs[pb.AttrOCILayoutSessionID], source.Attrs[pb.AttrOCILayoutStoreID])
	if name, ok := n.given[key]; ok {
		return name
	}
	_, ref, _ := strings.Cut(source.Identifier, "://")
	ref, _, _ = strings.Cut(ref, "@")
	base, _, _ := strings.Cut(path.Base(ref), ":")
	name := base
	for i := 2; n.taken[name]; i++ {
		name = fmt.Sprintf("%s-%d", base, i)
	}
	n.taken[name], n.given[key] = true, name
	return name
}

// find returns the image of a source, or nil if the daemon was not given it.
func (r *Replacer) find(ctx context.Context, b *builds.Build, source *pb.SourceOp, platform *pb.Platform) (*images.Image, error) {
	wanted := ocispecs.Platform{OS: b.Shared.Platform.OS, Architecture: b.Shared.Platform.Architecture, Variant: b.Shared.Platform.Variant}
	if platform != nil {
		wanted = ocispecs.Platform{OS: platform.OS, Architecture: platform.Architecture, Variant: platform.Variant}
	}
	wanted = platforms.Normalize(wanted)
	if name, ok := strings.CutPrefix(source.Identifier, schemeOfImages); ok {
		return r.Images.Find(ctx, name, wanted)
	}
	session := source.Attrs[pb.AttrOCILayoutSessionID]
	if session == "" {
		session = b.Session
	}
	caller, err := b.Shared.Sessions.Get(ctx, b.User, session)
	if err != nil {
		return nil, err
	}
	store := sessioncontent.NewCallerStore(caller, "oci:"+source.Attrs[pb.AttrOCILayoutStoreID])
	return images.InStore(ctx, strings.TrimPrefix(source.Identifier, schemeOfLayouts), images.Watched(store, b.Shared.Keeper.Idle()), wanted)
}

// A Config is the configuration of an image, with the digest that a reference to it names.
type Config struct {
	Digest digest.Digest
	Text   []byte
}

// ImageConfig returns the configuration of the image of a source, to which policies are applied, or nil if it becomes a source that is no
// image. One that is not there is refused.
func (r *Replacer) ImageConfig(
	ctx context.Context, b *builds.Build, source *pb.SourceOp, platform *pb.Platform, policies []*spb.Policy,
) (*Config, error) {
	_, given, err := b.Given(ctx)
	if err != nil {
		return nil, err
	}
	if _, err := evaluate(ctx, sourcepolicy.NewEngine(slices.Concat(given, policies)), source); err != nil {
		return nil, err
	}
	if !isImage(source) {
		return nil, nil
	}
	image, err := r.find(ctx, b, source, platform)
	if err != nil {
		return nil, err
	}
	if image == nil {
		return nil, status.Errorf(codes.Unimplemented, "llbm: fault 88 Source (%s)\n%s", source.Identifier, sources.Instead(source.Identifier))
	}
	defer image.Close()
	return &Config{image.Digest, image.Config}, nil
}
