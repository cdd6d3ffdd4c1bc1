package rules

import (
	"context"
	"encoding/json"
	"errors"
	"fmt"
	"io"
	"io/fs"
	"path/filepath"
	"strings"
	"syscall"

	"github.com/moby/buildkit/solver/pb"
	"github.com/tonistiigi/fsutil"
	"github.com/tonistiigi/fsutil/types"
	"llbm/daemon/internal/paths"
	"llbm/daemon/internal/persistent"
)

// Sent returns what BuildKit's client sends of the tree of a local source, by the library that it uses. Rule Filters: what the
// source's filters select; it fails for what is no pattern. Rule LocalOwner: with the owner 0:0. Rule LocalRoot: the root is 0755.
func Sent(ctx context.Context, source *pb.SourceOp, t *Node, like Rules) (*Node, error) {
	var err error
	if like.Has(Filters) {
		if t, err = selectedBy(ctx, source, t); err != nil {
			return nil, err
		}
	}
	if like.Has(LocalOwner) {
		t = withoutOwners(t)
	}
	if like.Has(LocalRoot) && t.mode != newMode {
		root := t.entry
		root.mode = newMode
		t = t.withEntry(root)
	}
	return t, nil
}

// filtersOf returns the filters of a source.
func filtersOf(source *pb.SourceOp) (*fsutil.FilterOpt, error) {
	found := &fsutil.FilterOpt{}
	for key, to := range map[string]*[]string{
		pb.AttrIncludePatterns: &found.IncludePatterns,
		pb.AttrExcludePatterns: &found.ExcludePatterns,
		pb.AttrFollowPaths:     &found.FollowPaths,
	} {
		if value, ok := source.Attrs[key]; ok {
			if err := json.Unmarshal([]byte(value), to); err != nil {
				return nil, fmt.Errorf("%s is no list of texts", key)
			}
		}
		if len(*to) == 0 {
			*to = nil
		}
	}
	return found, nil
}

// isFiltered is whether a source has a filter.
func isFiltered(source *pb.SourceOp) bool {
	found, err := filtersOf(source)
	return err != nil || len(found.IncludePatterns)+len(found.ExcludePatterns)+len(found.FollowPaths) > 0
}

// selectedBy returns what the filters of a source select.
func selectedBy(ctx context.Context, source *pb.SourceOp, t *Node) (*Node, error) {
	filters, err := filtersOf(source)
	if err != nil {
		return nil, err
	}
	selecting, err := fsutil.NewFilterFS(directory{t}, filters)
	if err != nil {
		return nil, err
	}
	var b builder
	b.begin(t.entry)
	err = selecting.Walk(ctx, "/", func(path string, _ fs.DirEntry, err error) error {
		if err != nil {
			return err
		}
		one := t.At(paths.Names(path)).entry
		if !one.dir && !isSent(selecting, path) {
			one.content = contentOf("")
		}
		return b.put(path, one)
	})
	return b.tree(), err
}

// isSent is whether the bytes of a file that filters select are sent: fsutil's walk takes a file by what the patterns match of the
// directories above it, and its Open by the file's own path; what it does not open comes empty.
func isSent(filtered fsutil.FS, path string) bool {
	file, err := filtered.Open(path)
	if err == nil {
		_ = file.Close()
	}
	return err == nil
}

// withoutOwners returns a tree in which all is of 0:0.
func withoutOwners(t *Node) *Node {
	one := t.entry
	one.user, one.group = 0, 0
	var below persistent.Builder[*Node]
	for name, child := range t.below.All() {
		below.Add(name, withoutOwners(child))
	}
	return shared(newNode(one, below.Map()), t)
}

// A directory is a tree as fsutil walks it.
type directory struct{ root *Node }

// Open returns nothing of a file: nothing reads contents.
func (d directory) Open(string) (io.ReadCloser, error) { return unread{}.Open("") }

// Walk calls a function for what is at and below a path, but for the root, in path order. Above the root there is nothing.
func (d directory) Walk(ctx context.Context, target string, found fs.WalkDirFunc) error {
	if strings.HasPrefix(filepath.Clean(target)+"/", "../") {
		return nil
	}
	names := paths.Names(target)
	if one := d.root.At(names); one != nil {
		if err := walk(ctx, paths.Clean(target), one, found); err != nil && err != fs.SkipDir {
			return err
		}
	}
	return nil
}

func walk(ctx context.Context, path string, n *Node, found fs.WalkDirFunc) error {
	if err := ctx.Err(); err != nil {
		return err
	}
	prefix := ""
	if path != "" {
		stat := &types.Stat{Path: path}
		if n.dir {
			stat.Mode = uint32(fs.ModeDir)
		}
		err := found(path, &fsutil.DirEntryInfo{Stat: stat}, nil)
		if errors.Is(err, fs.ErrNotExist) || errors.Is(err, syscall.ENOTDIR) {
			err = fs.SkipDir // as fsutil's own walk does, which so lists a file as an empty directory
		}
		if err == fs.SkipDir && n.dir {
			return nil
		}
		if err != nil {
			return err
		}
		prefix = path + "/"
	}
	for name, one := range n.below.All() {
		if err := walk(ctx, prefix+name, one, found); err == fs.SkipDir {
			return nil
		} else if err != nil {
			return err
		}
	}
	return nil
}
