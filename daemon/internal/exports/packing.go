package exports

import (
	"compress/gzip"
	"io"
	"strconv"

	"github.com/klauspost/compress/zstd"
	"google.golang.org/grpc/codes"
	"google.golang.org/grpc/status"
)

// A packing is how layers are packed.
type packing struct {
	form  string // gzip, zstd or uncompressed
	level *int   // or nil
}

// check refuses a level that the form has not.
func (p packing) check(kind string) error {
	if p.level == nil {
		return nil
	}
	least, most := gzip.HuffmanOnly, gzip.BestCompression
	if p.form == "zstd" {
		least, most = 0, 22
	}
	if *p.level < least || *p.level > most {
		return status.Errorf(codes.InvalidArgument, "exporter %s: compression-level=%d: of %s it is %d to %d", kind, *p.level, p.form, least, most)
	}
	return nil
}

// levelOf reads a level.
func levelOf(kind, value string) (*int, error) {
	level, err := strconv.Atoi(value)
	if err != nil {
		return nil, status.Errorf(codes.InvalidArgument, "exporter %s: non-integer value %s specified for compression-level", kind, value)
	}
	return &level, nil
}

// writer returns what packs into another writer. Equal bytes are packed to equal bytes.
func (p packing) writer(to io.Writer) (io.WriteCloser, error) {
	switch p.form {
	case "uncompressed":
		return unpacked{to}, nil
	case "zstd":
		level := zstd.SpeedDefault
		if p.level != nil {
			level = zstd.EncoderLevelFromZstd(*p.level)
		}
		return zstd.NewWriter(to, zstd.WithEncoderLevel(level), zstd.WithEncoderConcurrency(1))
	}
	level := gzip.DefaultCompression
	if p.level != nil {
		level = *p.level
	}
	return gzip.NewWriterLevel(to, level)
}

type unpacked struct{ io.Writer }

func (unpacked) Close() error { return nil }
