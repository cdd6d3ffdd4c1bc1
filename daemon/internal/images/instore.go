package images

import (
	"context"
	"errors"
	"time"

	"github.com/containerd/containerd/content"
	digest "github.com/opencontainers/go-digest"
	ocispecs "github.com/opencontainers/image-spec/specs-go/v1"
	"google.golang.org/grpc/codes"
	"google.golang.org/grpc/status"
)

// A Store is what a client's session has of the blobs of an OCI layout.
type Store interface {
	content.Provider
	Info(ctx context.Context, d digest.Digest) (content.Info, error)
}

// Watched returns a store that fails if the client sends nothing for a time.
func Watched(store Store, idle time.Duration) Store { return &watched{store, idle} }

type watched struct {
	Store
	idle time.Duration
}

var errIdle = errors.New("nothing came")

func (w *watched) Info(ctx context.Context, d digest.Digest) (content.Info, error) {
	ctx, cancel := context.WithTimeoutCause(ctx, w.idle, errIdle)
	defer cancel()
	info, err := w.Store.Info(ctx, d)
	return info, w.why(ctx, err)
}

func (w *watched) ReaderAt(ctx context.Context, desc ocispecs.Descriptor) (content.ReaderAt, error) {
	ctx, cancel := context.WithCancelCause(ctx)
	timer := time.AfterFunc(w.idle, func() { cancel(errIdle) })
	from, err := w.Store.ReaderAt(ctx, desc)
	if err != nil {
		timer.Stop()
		err = w.why(ctx, err)
		cancel(nil)
		return nil, err
	}
	return &watchedReader{from, w, ctx, cancel, timer}, nil
}

// why returns the error of a call that a client may not have answered.
func (w *watched) why(ctx context.Context, err error) error {
	if err != nil && errors.Is(context.Cause(ctx), errIdle) {
		return status.Errorf(codes.DeadlineExceeded, "the client sent nothing for %s", w.idle)
	}
	return err
}

// A watchedReader puts off its end with each read. The time between reads does not count.
type watchedReader struct {
	content.ReaderAt
	from   *watched
	ctx    context.Context
	cancel context.CancelCauseFunc
	timer  *time.Timer
}

func (r *watchedReader) ReadAt(data []byte, at int64) (int, error) {
	r.timer.Reset(r.from.idle)
	n, err := r.ReaderAt.ReadAt(data, at)
	r.timer.Stop()
	return n, r.from.why(r.ctx, err)
}

func (r *watchedReader) Close() error {
	r.timer.Stop()
	defer r.cancel(nil)
	return r.ReaderAt.Close()
}
