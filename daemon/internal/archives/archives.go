// Package archives says which files BuildKit takes for archives, and reads them.
package archives

import (
	"archive/tar"
	"bufio"
	"bytes"
	"compress/bzip2"
	"compress/gzip"
	"encoding/binary"
	"io"

	"github.com/klauspost/compress/zstd"
)

const (
	// mostOfWindow bounds what unpacking holds in memory.
	mostOfWindow = 128 << 20
	// mostOfHeader bounds what is read to tell whether a file is an archive.
	mostOfHeader = 8 << 20

	skippable     = 0x184D2A50 // the first number of a frame of zstd that is skipped
	skippableMask = 0xFFFFFFF0
)

// A Packing is by which program a file is packed, as its first bytes say.
type Packing int

const (
	Plain Packing = iota
	Gzip
	Bzip2
	XZ
	Zstd
)

// PackingOf returns by which program a file is packed that begins with some bytes: ten are enough.
func PackingOf(first []byte) Packing {
	switch {
	case bytes.HasPrefix(first, []byte("BZh")):
		return Bzip2
	case bytes.HasPrefix(first, []byte{0x1f, 0x8b, 0x08}):
		return Gzip
	case bytes.HasPrefix(first, []byte{0xfd, '7', 'z', 'X', 'Z', 0}):
		return XZ
	case bytes.HasPrefix(first, []byte{0x28, 0xb5, 0x2f, 0xfd}), len(first) >= 8 && binary.LittleEndian.Uint32(first)&skippableMask == skippable:
		return Zstd
	}
	return Plain
}

// Open returns a reader of what is in a file: unpacked, if it is packed.
func Open(from io.Reader) (io.Reader, error) {
	buffered := bufio.NewReader(from)
	first, err := buffered.Peek(10)
	if err != nil && err != io.EOF {
		return nil, err
	}
	switch PackingOf(first) {
	case Gzip:
		return gzip.NewReader(buffered)
	case Bzip2:
		return bzip2.NewReader(buffered), nil
	case XZ:
		return openXZ(buffered)
	case Zstd:
		return zstd.NewReader(buffered, zstd.WithDecoderConcurrency(1), zstd.WithDecoderMaxWindow(mostOfWindow))
	}
	return buffered, nil
}

// Is is whether BuildKit takes a file for an archive: it begins with an entry of a tar, which may be packed.
func Is(from io.Reader) bool {
	inside, err := Open(from)
	if err != nil {
		return false
	}
	if packed, ok := inside.(*zstd.Decoder); ok {
		defer packed.Close()
	}
	_, err = tar.NewReader(io.LimitReader(inside, mostOfHeader)).Next()
	return err == nil
}
