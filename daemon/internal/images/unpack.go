package images

import (
	"archive/tar"
	"bufio"
	"bytes"
	"compress/bzip2"
	"compress/gzip"
	"context"
	"errors"
	"fmt"
	"io"
	"maps"
	"math"
	"os"
	"slices"
	"strings"

	"github.com/klauspost/compress/zstd"
	fstypes "github.com/tonistiigi/fsutil/types"
	"google.golang.org/grpc/codes"
	"google.golang.org/grpc/status"
	"llbm/daemon/internal/archives"
	"llbm/daemon/internal/contents"
	"llbm/daemon/internal/sources"
)

// The bounds of what layers unpack to: all bytes, and the memory that unpacking zstd may take.
var mostUnpacked int64 = 64 << 30

const mostOfWindow = 128 << 20

// ofEntry is what an entry of a layer takes in memory, about, beside its names.
const ofEntry = 512

// attribute begins the names of records that have an extended attribute.
const attribute = "SCHILY.xattr."

// Read reads the tree of the image into a store. The caller has to drop the manifest.
func (i *Image) Read(ctx context.Context, store *contents.Store, options sources.Options) (*sources.Manifest, error) {
	options.Name, options.What = i.Name, "image "+i.Name
	if i.root != "" {
		return readDirectory(ctx, store, i.root, options)
	}
	pack, err := store.NewPack()
	if err != nil {
		return nil, err
	}
	overlay := newOverlay()
	u := &unpacker{ctx: ctx, pack: pack, overlay: overlay, put: overlay.put, options: options, left: mostUnpacked}
	manifest, err := sources.Collect(pack, options, func(add sources.Add) error {
		if err := u.all(i); err != nil {
			return wrapped(i.Name, err)
		}
		return u.entries(add)
	})
	if err == nil {
		manifest.Removed = overlay.own
	}
	return manifest, err
}

// An unpacker unpacks layers.
type unpacker struct {
	ctx     context.Context
	pack    *contents.Pack
	overlay *overlay          // of an image
	put     func(*item) error // takes the next entry
	options sources.Options
	left    int64 // the bytes that may still be unpacked
	came    int64
	entered int // the entries so far
	named   int // the bytes of their names
}

// all lays all layers one over another.
func (u *unpacker) all(i *Image) error {
	for n, desc := range i.layers {
		from, err := i.layer(u.ctx, desc)
		if err != nil {
			return fmt.Errorf("layer %d: %w", n+1, err)
		}
		u.overlay.layer = n + 1
		err = u.layer(from, i.contents[n].Verifier())
		_ = from.Close()
		if err != nil {
			return withPlace(n+1, err)
		}
	}
	return nil
}

// withPlace says of which layer an error is.
func withPlace(layer int, err error) error {
	if code := status.Code(err); code != codes.Unknown {
		return status.Errorf(code, "layer %d: %s", layer, status.Convert(err).Message())
	}
	return fmt.Errorf("layer %d: %w", layer, err)
}

// layer lays a layer, and checks that it unpacks to what the configuration says, to its end.
func (u *unpacker) layer(from io.Reader, content interface {
	io.Writer
	Verified() bool
}) error {
	plain, err := unpacked(from)
	if err != nil {
		return err
	}
	defer plain.Close()
	all := io.TeeReader(&limited{from: plain, u: u}, content)
	archive := tar.NewReader(all)
	for {
		h, err := archive.Next()
		if errors.Is(err, io.EOF) {
			break
		}
		if err == nil {
			err = u.entry(h, archive)
		}
		if err != nil {
			return err
		}
	}
	if _, err := io.Copy(io.Discard, all); err != nil {
		return err
	}
	if _, err := io.Copy(io.Discard, from); err != nil { // a digest is checked at the end
		return err
	}
	if !content.Verified() {
		return errors.New("it does not unpack to what the configuration says")
	}
	return nil
}

// limited refuses more bytes than layers may have, and ends with the context.
type limited struct {
	from io.Reader
	u    *unpacker
}

func (l *limited) Read(data []byte) (int, error) {
	if err := l.u.ctx.Err(); err != nil {
		return 0, err
	}
	n, err := l.from.Read(data)
	if l.u.left -= int64(n); l.u.left < 0 {
		return 0, status.Errorf(codes.ResourceExhausted, "more than %d bytes of layers", mostUnpacked)
	}
	return n, err
}

// unpacked returns what a layer unpacks to, by the bytes that it begins with.
func unpacked(from io.Reader) (io.ReadCloser, error) {
	start := bufio.NewReaderSize(from, 1<<16)
	head, _ := start.Peek(6)
	switch {
	case bytes.HasPrefix(head, []byte("\x1f\x8b")):
		return gzip.NewReader(start)
	case bytes.HasPrefix(head, []byte("\x28\xb5\x2f\xfd")):
		z, err := zstd.NewReader(start, zstd.WithDecoderConcurrency(1), zstd.WithDecoderMaxWindow(mostOfWindow))
		if err != nil {
			return nil, err
		}
		return z.IOReadCloser(), nil
	case bytes.HasPrefix(head, []byte("BZh")):
		return io.NopCloser(bzip2.NewReader(start)), nil
	case bytes.HasPrefix(head, []byte("\xfd7zXZ\x00")):
		plain, err := archives.Open(start)
		return io.NopCloser(plain), err
	}
	return io.NopCloser(start), nil
}

// entry takes an entry of a layer, with its content.
func (u *unpacker) entry(h *tar.Header, from io.Reader) error {
	u.entered++
	u.named += len(h.Name) + len(h.Linkname)
	if err := sources.CheckCounts(u.entered, u.named); err != nil {
		return err
	}
	if u.options.Hold != nil {
		if err := u.options.Hold(ofEntry + len(h.Name) + len(h.Linkname)); err != nil {
			return err
		}
	}
	switch h.Typeflag {
	case tar.TypeReg, tar.TypeDir, tar.TypeSymlink, tar.TypeLink, tar.TypeChar, tar.TypeBlock, tar.TypeFifo:
	case tar.TypeXGlobalHeader:
		return nil
	default:
		return fmt.Errorf("%.80q is an entry of the kind %q", h.Name, h.Typeflag)
	}
	if h.Uid < 0 || h.Uid >= math.MaxUint32 || h.Gid < 0 || h.Gid >= math.MaxUint32 { // the last one changes nothing
		return fmt.Errorf("%.80q has an owner that is not below 2^32-1", h.Name)
	}
	one := &item{header: h}
	if h.Typeflag == tar.TypeReg && h.Size > 0 {
		var err error
		if one.content, err = u.pack.Reserve(h.Size); err != nil {
			return err
		}
		if err := u.copy(one.content, from); err != nil {
			return fmt.Errorf("%.80q: %w", h.Name, err)
		}
	}
	return u.put(one)
}

// copy writes a content.
func (u *unpacker) copy(to contents.Ref, from io.Reader) error {
	n, err := io.Copy(io.NewOffsetWriter(writerAt{to}, 0), from)
	if err == nil && n != to.Size {
		err = io.ErrUnexpectedEOF
	}
	if u.came += n; u.options.Progress != nil {
		u.options.Progress(u.came)
	}
	return err
}

// writerAt writes into the room of a content.
type writerAt struct{ contents.Ref }

func (w writerAt) WriteAt(data []byte, at int64) (int, error) {
	if err := w.Ref.WriteAt(data, at); err != nil {
		return 0, err
	}
	return len(data), nil
}

// entries hands on all entries in path order, without the root. Of the names of a file the first one is the file.
func (u *unpacker) entries(add sources.Add) error {
	first := map[*item]string{}
	type step struct {
		path string
		node *node
	}
	todo := []step{{"", u.overlay.root}}
	for len(todo) > 0 {
		one := todo[len(todo)-1]
		todo = todo[:len(todo)-1]
		if one.path != "" {
			if err := add(statOf(one.path, one.node.item, first), one.node.item.content); err != nil {
				return err
			}
		}
		names := slices.Sorted(maps.Keys(one.node.below))
		slices.Reverse(names)
		for _, name := range names {
			todo = append(todo, step{strings.TrimPrefix(one.path+"/"+name, "/"), one.node.below[name]})
		}
	}
	return nil
}

// statOf returns an entry as a client would send it.
func statOf(path string, i *item, first map[*item]string) *fstypes.Stat {
	h := i.header
	st := &fstypes.Stat{
		Path: path, Mode: uint32(modeOf(h)), Uid: uint32(h.Uid), Gid: uint32(h.Gid), Size_: h.Size, ModTime: h.ModTime.UnixNano(),
		Devmajor: h.Devmajor, Devminor: h.Devminor,
	}
	for key, value := range h.PAXRecords {
		if name, ok := strings.CutPrefix(key, attribute); ok {
			if st.Xattrs == nil {
				st.Xattrs = map[string][]byte{}
			}
			st.Xattrs[name] = []byte(value)
		}
	}
	switch before, ok := first[i]; {
	case i.is(tar.TypeSymlink):
		st.Linkname, st.Size_ = h.Linkname, 0
	case ok:
		st.Linkname = before
	default:
		first[i] = path
	}
	return st
}

// modeOf returns a mode as Go has it: that of the header, whose permissions FileInfo takes, with the kind of the entry.
func modeOf(h *tar.Header) os.FileMode {
	mode := h.FileInfo().Mode()
	if h.Typeflag == tar.TypeReg {
		mode &^= os.ModeType // old archives have kinds in the bits of a mode
	}
	return mode
}
