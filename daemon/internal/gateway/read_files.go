package gateway

import (
	"context"
	"io"
	"path"

	gatewaypb "github.com/moby/buildkit/frontend/gateway/pb"
	"google.golang.org/grpc/codes"
	"google.golang.org/grpc/status"
	"llbm/daemon/internal/exports"
	"llbm/daemon/internal/links"
	"llbm/daemon/internal/results"
	"llbm/daemon/internal/tree"
)

// mostOfFile bounds what one call reads of a file.
const mostOfFile = 64 << 20

func (g *Gateway) entry(ctx context.Context, id, name string) (*results.Result, *tree.Entry, error) {
	r, err := g.solved(ctx, id)
	if err != nil {
		return nil, nil, err
	}
	to, err := links.Resolve(name, target(r))
	if err != nil {
		return nil, nil, status.Errorf(codes.InvalidArgument, "lstat %s: %v", name, err)
	}
	e := r.Tree.Find(to)
	if e == nil {
		return nil, nil, status.Errorf(codes.NotFound, "lstat %s: no such file or directory", name)
	}
	return r, e, nil
}

// target reads the links of a result.
func target(r *results.Result) links.Read {
	return func(path string) (string, error) {
		e := r.Tree.Find(path)
		if e == nil || e.Dir {
			return "", nil
		}
		return r.Contents.Link(e.Content), nil
	}
}

// ReadFile reads a file of a result, or a range of it.
func (g *Gateway) ReadFile(ctx context.Context, req *gatewaypb.ReadFileRequest) (*gatewaypb.ReadFileResponse, error) {
	r, e, err := g.entry(ctx, req.Ref, req.FilePath)
	if err != nil {
		return nil, err
	}
	if e.Dir {
		return nil, status.Errorf(codes.InvalidArgument, "%s is a directory", req.FilePath)
	}
	content, err := r.Contents.Content(e.Content)
	if err != nil {
		return nil, err
	}
	from, size := int64(0), content.Size
	if req.Range != nil {
		from = min(max(0, req.Range.Offset), content.Size)
		if size -= from; req.Range.Length > 0 {
			size = min(size, req.Range.Length)
		}
	}
	if size > mostOfFile {
		return nil, status.Errorf(codes.ResourceExhausted, "%s: at most %d bytes are read at once", req.FilePath, mostOfFile)
	}
	b, err := g.build(ctx)
	if err != nil {
		return nil, err
	}
	if err := b.Hold(int(size)); err != nil {
		return nil, err
	}
	defer b.Free(int(size))
	data, err := io.ReadAll(content.Reader(from, size))
	return &gatewaypb.ReadFileResponse{Data: data}, err
}

// ReadDir lists a directory of a result.
func (g *Gateway) ReadDir(ctx context.Context, req *gatewaypb.ReadDirRequest) (*gatewaypb.ReadDirResponse, error) {
	r, e, err := g.entry(ctx, req.Ref, req.DirPath)
	if err != nil {
		return nil, err
	}
	if !e.Dir {
		return nil, status.Errorf(codes.InvalidArgument, "%s is not a directory", req.DirPath)
	}
	out := &gatewaypb.ReadDirResponse{}
	for _, child := range r.Tree.List(e.Path) {
		name := path.Base(child.Path)
		if req.IncludePattern != "" {
			matches, err := path.Match(req.IncludePattern, name)
			if err != nil {
				return nil, status.Errorf(codes.InvalidArgument, "%q: %v", req.IncludePattern, err)
			}
			if !matches {
				continue
			}
		}
		st, err := exports.Stat(r, child, name, epoch)
		if err != nil {
			return nil, err
		}
		out.Entries = append(out.Entries, st)
	}
	return out, nil
}

// StatFile says what is at a path of a result.
func (g *Gateway) StatFile(ctx context.Context, req *gatewaypb.StatFileRequest) (*gatewaypb.StatFileResponse, error) {
	r, e, err := g.entry(ctx, req.Ref, req.Path)
	if err != nil {
		return nil, err
	}
	st, err := exports.Stat(r, e, path.Base(path.Clean("/"+req.Path)), epoch)
	return &gatewaypb.StatFileResponse{Stat: st}, err
}
