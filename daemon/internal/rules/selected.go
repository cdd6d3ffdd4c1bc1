package rules

import (
	"context"
	"fmt"
	"io"
	"io/fs"
	"reflect"
	"strings"

	"github.com/moby/buildkit/solver/pb"
	"github.com/tonistiigi/fsutil"
)

// localScheme is what the identifiers of local sources begin with.
const localScheme = "local://"

// FiltersIn returns the filters of the local source of a name in a definition, or nil if it has none. One tree is given for a name,
// so filters that differ are refused.
func FiltersIn(def *pb.Definition, name string) (*fsutil.FilterOpt, error) {
	var found *fsutil.FilterOpt
	for row, entry := range def.Def {
		var op pb.Op
		if err := op.Unmarshal(entry); err != nil {
			return nil, fmt.Errorf("entry %d is no op: %w", row, err)
		}
		source := op.GetSource()
		if source == nil || source.Identifier != localScheme+name {
			continue
		}
		one, err := filtersOf(source)
		if err != nil {
			return nil, fmt.Errorf("local source %s: %w", name, err)
		}
		if found != nil && !reflect.DeepEqual(found, one) {
			return nil, fmt.Errorf("local source %s has filters that differ from entry to entry, but one tree", name)
		}
		found = one
	}
	if found != nil && len(found.IncludePatterns)+len(found.ExcludePatterns)+len(found.FollowPaths) == 0 {
		return nil, nil
	}
	return found, nil
}

// SelectedBelow calls a function for each path below a directory that filters select, in the order in which BuildKit's client sends them.
// It is a NotSent if the client sends a file without its bytes.
func SelectedBelow(ctx context.Context, folder string, filters *fsutil.FilterOpt, found func(path string) error) error {
	all, err := fsutil.NewFS(folder)
	if err != nil {
		return err
	}
	selected, err := fsutil.NewFilterFS(unread{all}, filters)
	if err != nil {
		return err
	}
	return selected.Walk(ctx, "/", func(path string, one fs.DirEntry, err error) error {
		if err != nil {
			return err
		}
		about, err := one.Info()
		if err != nil {
			return err
		}
		if about.Mode().IsRegular() && about.Size() > 0 && !isSent(selected, path) {
			return NotSent(path)
		}
		return found(path)
	})
}

// NotSent is the path of a file that filters select, of which BuildKit's client sends no byte.
type NotSent string

func (path NotSent) Error() string {
	return fmt.Sprintf("%.200q: a pattern after the one with `!` that selects it matches a directory above it, so BuildKit's client sends it empty", string(path))
}

// An unread is a directory whose files are opened, but not read.
type unread struct{ fsutil.FS }

func (unread) Open(string) (io.ReadCloser, error) { return io.NopCloser(strings.NewReader("")), nil }
