// Package contents keeps contents of files on disk, in files without names, and stands tokens for them in texts of trees.
//
// A token is the byte 255, which UTF-8 does not have, and a number of four bytes, the most significant first, as
// llbm-tools build has them. llbm hands contents on without looking at them, so what it prints has tokens in the place of
// contents, with literal bytes between them.
package contents

import (
	"errors"
	"fmt"
	"io"
	"os"
	"sync"

	"golang.org/x/sys/unix"
	"google.golang.org/grpc/codes"
	"google.golang.org/grpc/status"
)

// The bounds of a store whose size is not given: half of what is free on its disk, but no more and no less than these bytes.
const (
	mostByDefault  = 10 << 30
	leastByDefault = 64 << 20
)

// A Store bounds what its packs take on disk. Nothing of it has a name, so nothing is left when the process ends.
type Store struct {
	folder string
	most   int64
	mu     sync.Mutex
	used   int64
	free   func() bool
}

// New makes a store of at most some bytes in a folder; 0 is a size that suits its disk.
func New(folder string, most int64) (*Store, error) {
	if most == 0 {
		var disk unix.Statfs_t
		if err := unix.Statfs(folder, &disk); err != nil {
			return nil, fmt.Errorf("the store: %w", &os.PathError{Op: "statfs", Path: folder, Err: err})
		}
		most = byDefault(int64(disk.Bavail) * disk.Bsize)
	}
	s := &Store{folder: folder, most: most, free: func() bool { return false }}
	file, err := s.file()
	if err != nil {
		return nil, fmt.Errorf("the store: %w", err)
	}
	return s, file.Close()
}

// byDefault returns the size of a store on a disk with some free bytes.
func byDefault(free int64) int64 { return max(leastByDefault, min(mostByDefault, free/2)) }

// WhenFull sets what frees room in a full store: it gives up something that no build uses, or returns false.
func (s *Store) WhenFull(free func() bool) { s.free = free }

// Used returns how many bytes the packs have.
func (s *Store) Used() int64 {
	s.mu.Lock()
	defer s.mu.Unlock()
	return s.used
}

// file makes a file without a name.
func (s *Store) file() (*os.File, error) {
	fd, err := unix.Open(s.folder, unix.O_TMPFILE|unix.O_RDWR|unix.O_CLOEXEC, 0o600)
	if err == nil {
		return os.NewFile(uintptr(fd), s.folder+"/(contents)"), nil
	}
	if !errors.Is(err, unix.EOPNOTSUPP) && !errors.Is(err, unix.EISDIR) {
		return nil, &os.PathError{Op: "open", Path: s.folder, Err: err}
	}
	file, err := os.CreateTemp(s.folder, "llbmd-")
	if err != nil {
		return nil, err
	}
	return file, os.Remove(file.Name())
}

func (s *Store) take(size int64) error {
	for {
		s.mu.Lock()
		if size <= s.most-s.used {
			s.used += size
			s.mu.Unlock()
			return nil
		}
		s.mu.Unlock()
		if size > s.most || !s.free() {
			return status.Errorf(codes.ResourceExhausted, "the store of contents is full: it has %d bytes, and may have %d", s.Used(), s.most)
		}
	}
}

// trying does what needs room on the disk, or one more open file. Where there is none, what no build uses is given up, and it is tried
// again; a lack that stays is a status of gRPC.
func (s *Store) trying(what func() error) error {
	for {
		err := what()
		if !isLack(err) {
			return err
		}
		if !s.free() {
			return status.Errorf(codes.ResourceExhausted, "the store of contents: %v", err)
		}
	}
}

func isLack(err error) bool {
	for _, one := range []error{unix.ENOSPC, unix.EDQUOT, unix.EMFILE, unix.ENFILE, unix.EFBIG} {
		if errors.Is(err, one) {
			return true
		}
	}
	return false
}

// A disk is the file of a pack.
type disk interface {
	io.ReaderAt
	io.WriterAt
	io.Closer
	Truncate(size int64) error
}

// A Pack is a file with contents, one after the other. It is closed once nobody holds it.
type Pack struct {
	store   *Store
	file    disk
	mu      sync.Mutex
	size    int64
	unused  int64 // of the size: what has been given up
	holders int
}

// NewPack makes an empty pack, which its caller holds.
func (s *Store) NewPack() (*Pack, error) {
	var file *os.File
	err := s.trying(func() (err error) {
		file, err = s.file()
		return err
	})
	if err != nil {
		return nil, err
	}
	return &Pack{store: s, file: file, holders: 1}, nil
}

// Hold keeps the pack until a Drop.
func (p *Pack) Hold() {
	p.mu.Lock()
	p.holders++
	p.mu.Unlock()
}

// Drop ends a hold; the last one frees what the pack takes.
func (p *Pack) Drop() {
	p.mu.Lock()
	p.holders--
	last, size := p.holders == 0, p.size-p.unused
	p.mu.Unlock()
	if last {
		_ = p.file.Truncate(0) // a process that is just being started has the file open too
		_ = p.file.Close()
		p.store.mu.Lock()
		p.store.used -= size
		p.store.mu.Unlock()
	}
}

// Reserve makes room for a content of some bytes.
func (p *Pack) Reserve(size int64) (Ref, error) {
	if err := p.store.take(size); err != nil {
		return Ref{}, err
	}
	p.mu.Lock()
	defer p.mu.Unlock()
	ref := Ref{Pack: p, Start: p.size, Size: size}
	p.size += size
	return ref, nil
}

// A Ref is where a content is.
type Ref struct {
	Pack        *Pack
	Start, Size int64
}

// GiveUp frees the room of a content of which nothing was written, and which nobody reads.
func (r Ref) GiveUp() {
	r.Pack.mu.Lock()
	r.Pack.unused += r.Size
	r.Pack.mu.Unlock()
	r.Pack.store.mu.Lock()
	r.Pack.store.used -= r.Size
	r.Pack.store.mu.Unlock()
}

// WriteAt writes a part of the content; a disk that stays full is a status of gRPC.
func (r Ref) WriteAt(data []byte, at int64) error {
	if at < 0 || at+int64(len(data)) > r.Size {
		return fmt.Errorf("bytes %d to %d of a content of %d", at, at+int64(len(data)), r.Size)
	}
	return r.Pack.store.trying(func() error {
		_, err := r.Pack.file.WriteAt(data, r.Start+at)
		return err
	})
}

// ReadAt reads a part of the content.
func (r Ref) ReadAt(data []byte, at int64) (int, error) {
	return r.Pack.file.ReadAt(data, r.Start+at)
}

// Write adds bytes at the end of the pack, which has one writer.
func (p *Pack) Write(data []byte) (int, error) {
	ref, err := p.Reserve(int64(len(data)))
	if err != nil {
		return 0, err
	}
	return len(data), ref.WriteAt(data, 0)
}

// All is all that has been written.
func (p *Pack) All() Ref {
	p.mu.Lock()
	defer p.mu.Unlock()
	return Ref{Pack: p, Size: p.size}
}
