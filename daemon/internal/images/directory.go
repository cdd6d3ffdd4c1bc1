package images

import (
	"context"
	"io"
	"io/fs"

	"github.com/tonistiigi/fsutil"
	fstypes "github.com/tonistiigi/fsutil/types"
	"google.golang.org/grpc/codes"
	"llbm/daemon/internal/contents"
	"llbm/daemon/internal/sources"
)

// readDirectory reads a directory as a client sends one: its entries belong to root.
func readDirectory(ctx context.Context, store *contents.Store, root string, options sources.Options) (*sources.Manifest, error) {
	files, err := fsutil.NewFS(root)
	if err != nil {
		return nil, refuse(options.Name, codes.FailedPrecondition, "%v", err)
	}
	pack, err := store.NewPack()
	if err != nil {
		return nil, err
	}
	u := &unpacker{ctx: ctx, pack: pack, options: options}
	return sources.Collect(pack, options, func(add sources.Add) error {
		return files.Walk(ctx, "", func(path string, entry fs.DirEntry, err error) error {
			if err != nil {
				return refuse(options.Name, codes.FailedPrecondition, "%v", err)
			}
			info, err := entry.Info()
			if err != nil {
				return refuse(options.Name, codes.FailedPrecondition, "%v", err)
			}
			st := *info.Sys().(*fstypes.Stat)
			st.Uid, st.Gid = 0, 0
			var content contents.Ref
			if info.Mode().IsRegular() && st.Linkname == "" && st.Size_ > 0 {
				if content, err = u.file(files, path, st.Size_); err != nil {
					return wrapped(options.Name, err)
				}
			}
			return add(&st, content)
		})
	})
}

// file takes the content of a file of a directory.
func (u *unpacker) file(files fsutil.FS, path string, size int64) (contents.Ref, error) {
	content, err := u.pack.Reserve(size)
	if err != nil {
		return content, err
	}
	from, err := files.Open(path)
	if err != nil {
		return content, err
	}
	defer from.Close()
	return content, u.copy(content, io.LimitReader(from, size))
}
