// Package exports sends results to clients' sessions, as their exporters ask.
package exports

import (
	"context"
	"io"
	"io/fs"
	"os"
	"path"
	"time"

	fstypes "github.com/tonistiigi/fsutil/types"
	"llbm/daemon/internal/results"
	"llbm/daemon/internal/tree"
)

// Stat is the message that clients read of an entry. Trees keep no times, so all have the same one.
func Stat(r *results.Result, e *tree.Entry, name string, when time.Time) (*fstypes.Stat, error) {
	st := &fstypes.Stat{Path: name, Mode: uint32(e.GoMode()), Uid: e.UID, Gid: e.GID, ModTime: when.UnixNano()}
	if !e.Dir {
		content, err := r.Contents.Content(e.Content)
		if err != nil {
			return nil, err
		}
		st.Size_ = content.Size
		if content.Link != "" {
			st.Mode, st.Linkname, st.Size_ = uint32(os.ModeSymlink|0o777), content.Link, int64(len(content.Link))
		}
	}
	return st, nil
}

// files show a result to the sender of a diff copy, and to the writer of an archive.
type files struct {
	result *results.Result
	when   time.Time
	moved  func() // is called with each entry
}

func (f files) Walk(ctx context.Context, _ string, to fs.WalkDirFunc) error {
	for i := range f.result.Tree {
		e := &f.result.Tree[i]
		if e.Path == "" {
			continue
		}
		if err := ctx.Err(); err != nil {
			return err
		}
		f.moved()
		st, err := Stat(f.result, e, e.Path, f.when)
		if err != nil {
			return err
		}
		if err := to(e.Path, item{st}, nil); err != nil {
			return err
		}
	}
	return nil
}

func (f files) Open(name string) (io.ReadCloser, error) {
	e := f.result.Tree.Find(name)
	if e == nil || e.Dir {
		return nil, &os.PathError{Op: "open", Path: name, Err: os.ErrNotExist}
	}
	content, err := f.result.Contents.Content(e.Content)
	if err != nil {
		return nil, err
	}
	return io.NopCloser(content.Reader(0, -1)), nil
}

// An item is an entry as Go's file systems have it.
type item struct{ stat *fstypes.Stat }

func (i item) Name() string               { return path.Base(i.stat.Path) }
func (i item) IsDir() bool                { return i.Mode().IsDir() }
func (i item) Type() fs.FileMode          { return i.Mode().Type() }
func (i item) Info() (fs.FileInfo, error) { return i, nil }
func (i item) Size() int64                { return i.stat.Size_ }
func (i item) Mode() fs.FileMode          { return fs.FileMode(i.stat.Mode) }
func (i item) ModTime() time.Time         { return time.Unix(0, i.stat.ModTime) }
func (i item) Sys() any                   { return i.stat }
