// Package replacements puts something else in the place of ops that a client sent: what policies convert sources to, stand-ins of
// executions, and a local source for each image that is there.
package replacements

import (
	"context"
	"slices"

	"github.com/moby/buildkit/solver/pb"
	spb "github.com/moby/buildkit/sourcepolicy/pb"
	"llbm/daemon/internal/builds"
	"llbm/daemon/internal/gathering"
	"llbm/daemon/internal/images"
	"llbm/daemon/internal/standins"
)

// A Replacer has the images and the stand-ins that the daemon was given for all builds.
type Replacer struct {
	Images   *images.Catalog // or nil
	StandIns standins.Set
}

// Replaced is what has been put in the place of ops, by their rows.
type Replaced struct {
	standIns map[int]standIn
	Images   gathering.Images
}

// Close closes the images.
func (r *Replaced) Close() { r.Images.Close() }

// Replace returns a definition with other ops in the place of some, row by row. It has been respelled, and the client sent another one.
// The caller has to close what was replaced.
func (r *Replacer) Replace(
	ctx context.Context, b *builds.Build, def, sent *pb.Definition, policies []*spb.Policy,
) (*pb.Definition, *Replaced, error) {
	_, given, err := b.Given(ctx)
	if err != nil {
		return nil, nil, err
	}
	if def, err = convert(ctx, def, slices.Concat(given, policies)); err != nil {
		return nil, nil, err
	}
	made := &Replaced{}
	if def, made.standIns, err = r.standIn(ctx, b, def, sent); err != nil {
		return nil, nil, err
	}
	if def, made.Images, err = r.pull(ctx, b, def); err != nil {
		return nil, nil, err
	}
	return def, made, nil
}
