package archives

import (
	"bufio"
	"bytes"
	"crypto/sha256"
	"encoding/binary"
	"errors"
	"fmt"
	"hash"
	"hash/crc32"
	"hash/crc64"
	"io"

	"github.com/ulikunitz/xz/lzma"
)

// The parts of an xz: https://tukaani.org/xz/xz-file-format.txt has their form.
const (
	sizeOfHeader = 12 // of a stream, and of its end
	placeOfCheck = 7  // the kind of checks, in the header of a stream
	lzma2        = 0x21
	mostOfCode   = 39 // of the size of a dictionary
	unit         = 4  // the bytes of which all parts are multiples
)

// The kinds of checks. Those that are not known are skipped, as the format wants it.
const (
	checkCRC32  = 1
	checkCRC64  = 4
	checkSHA256 = 10
)

var (
	errXZ      = errors.New("the xz is damaged")
	sizesOfXZ  = []int{0, 4, 4, 4, 8, 8, 8, 16, 16, 16, 32, 32, 32, 64, 64, 64} // of checks, by kind
	crc64Table = crc64.MakeTable(crc64.ECMA)
)

// counted counts the bytes that are read.
type counted struct {
	*bufio.Reader
	count int
}

func (c *counted) Read(data []byte) (int, error) {
	n, err := c.Reader.Read(data)
	c.count += n
	return n, err
}

func (c *counted) ReadByte() (byte, error) {
	one, err := c.Reader.ReadByte()
	if err == nil {
		c.count++
	}
	return one, err
}

// An xzReader unpacks streams of xz, block by block. The dictionary of each is bounded, which the library's reader of xz does not do.
type xzReader struct {
	from  *counted
	kind  byte // of checks
	sum   hash.Hash
	block io.Reader // nil between blocks
}

// openXZ opens what is packed by xz.
func openXZ(from *bufio.Reader) (io.Reader, error) {
	x := &xzReader{from: &counted{Reader: from}}
	if err := x.header(); err != nil {
		return nil, err
	}
	return x, nil
}

func (x *xzReader) Read(data []byte) (int, error) {
	for {
		if x.block == nil {
			if err := x.next(); err != nil {
				return 0, err
			}
		}
		n, err := x.block.Read(data)
		if x.sum != nil {
			_, _ = x.sum.Write(data[:n])
		}
		if err == io.EOF {
			if err = x.endBlock(); err == nil && n == 0 {
				continue
			}
		}
		return n, whole(err)
	}
}

// whole is the error of what ends early.
func whole(err error) error {
	if err == io.EOF {
		return io.ErrUnexpectedEOF
	}
	return err
}

// header reads the header of a stream.
func (x *xzReader) header() error {
	var head [sizeOfHeader]byte
	if _, err := io.ReadFull(x.from, head[:]); err != nil {
		return whole(err)
	}
	if PackingOf(head[:]) != XZ || crc32.ChecksumIEEE(head[6:8]) != binary.LittleEndian.Uint32(head[8:]) {
		return errXZ
	}
	x.kind = head[placeOfCheck]
	if int(x.kind) >= len(sizesOfXZ) || head[6] != 0 {
		return errXZ
	}
	return nil
}

// next begins the next block, of this stream or of another one. After the last one it is io.EOF.
func (x *xzReader) next() error {
	for {
		x.from.count = 0
		size, err := x.from.ReadByte()
		if err != nil {
			return whole(err)
		}
		if size != 0 {
			return x.begin(size)
		}
		if err := x.endStream(); err != nil {
			return err
		}
	}
}

// begin begins a block, of whose header the first byte is read.
func (x *xzReader) begin(size byte) error {
	head := make([]byte, (int(size)+1)*unit)
	head[0] = size
	if _, err := io.ReadFull(x.from, head[1:]); err != nil {
		return whole(err)
	}
	body := head[:len(head)-unit]
	if crc32.ChecksumIEEE(body) != binary.LittleEndian.Uint32(head[len(body):]) {
		return errXZ
	}
	flags, fields := body[1], bytes.NewReader(body[2:])
	for _, bit := range []byte{0x40, 0x80} { // sizes, which are not needed
		if flags&bit != 0 {
			if _, err := binary.ReadUvarint(fields); err != nil {
				return errXZ
			}
		}
	}
	filter := make([]byte, 3)
	if _, err := io.ReadFull(fields, filter); err != nil || flags&3 != 0 || filter[0] != lzma2 || filter[1] != 1 {
		return errors.New("the xz has a filter that is not known")
	}
	code := filter[2]
	dictionary := (2 | int64(code&1)) << (code/2 + 11)
	if code > mostOfCode || dictionary > mostOfWindow {
		return fmt.Errorf("unpacking the xz takes more than %d bytes of memory", mostOfWindow)
	}
	var err error
	x.sum = newSum(x.kind)
	x.from.count = 0
	x.block, err = lzma.Reader2Config{DictCap: int(dictionary)}.NewReader2(x.from)
	return err
}

// newSum returns the hash of a kind of checks, or nil.
func newSum(kind byte) hash.Hash {
	switch kind {
	case checkCRC32:
		return crc32.NewIEEE()
	case checkCRC64:
		return crc64.New(crc64Table)
	case checkSHA256:
		return sha256.New()
	}
	return nil
}

// endBlock reads what is after a block, and checks what it unpacked to.
func (x *xzReader) endBlock() error {
	x.block = nil
	if err := x.fill(); err != nil {
		return err
	}
	check := make([]byte, sizesOfXZ[x.kind])
	if _, err := io.ReadFull(x.from, check); err != nil {
		return whole(err)
	}
	if x.sum == nil {
		return nil
	}
	sum := x.sum.Sum(nil)
	if x.kind != checkSHA256 { // a number, whose last byte comes first
		for i := range len(sum) / 2 {
			sum[i], sum[len(sum)-1-i] = sum[len(sum)-1-i], sum[i]
		}
	}
	if !bytes.Equal(sum, check) {
		return errXZ
	}
	return nil
}

// fill reads the zeros up to the next multiple of the unit.
func (x *xzReader) fill() error {
	for x.from.count%unit != 0 {
		if one, err := x.from.ReadByte(); err != nil || one != 0 {
			return errXZ
		}
	}
	return nil
}

// endStream reads what is after the last block of a stream, up to the header of another one. If there is none it is io.EOF.
func (x *xzReader) endStream() error {
	records, err := binary.ReadUvarint(x.from)
	for range 2 * records {
		if err != nil {
			return errXZ
		}
		_, err = binary.ReadUvarint(x.from)
	}
	if err == nil {
		err = x.fill()
	}
	if err != nil {
		return errXZ
	}
	if _, err := io.CopyN(io.Discard, x.from, unit+sizeOfHeader); err != nil {
		return whole(err)
	}
	for {
		next, err := x.from.Peek(unit)
		switch {
		case err == io.EOF && len(next) == 0:
			return io.EOF
		case err != nil:
			return errXZ
		case !bytes.Equal(next, make([]byte, unit)):
			return x.header()
		}
		_, _ = x.from.Discard(unit)
	}
}
