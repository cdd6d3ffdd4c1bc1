package archives

import (
	"archive/tar"
	"bytes"
	"compress/gzip"
	"encoding/hex"
	"strings"
	"testing"

	"github.com/klauspost/compress/zstd"
)

func tarred(t *testing.T, names ...string) []byte {
	t.Helper()
	var made bytes.Buffer
	to := tar.NewWriter(&made)
	for _, name := range names {
		if err := to.WriteHeader(&tar.Header{Name: name, Mode: 0o644, Size: 1}); err != nil {
			t.Fatal(err)
		}
		if _, err := to.Write([]byte("x")); err != nil {
			t.Fatal(err)
		}
	}
	if err := to.Close(); err != nil {
		t.Fatal(err)
	}
	return made.Bytes()
}

func gzipped(t *testing.T, data []byte) []byte {
	t.Helper()
	var made bytes.Buffer
	to := gzip.NewWriter(&made)
	if _, err := to.Write(data); err != nil {
		t.Fatal(err)
	}
	if err := to.Close(); err != nil {
		t.Fatal(err)
	}
	return made.Bytes()
}

func unhex(t *testing.T, text string) []byte {
	t.Helper()
	data, err := hex.DecodeString(text)
	if err != nil {
		t.Fatal(err)
	}
	return data
}

func TestAnArchiveIsToldByItsBytes(t *testing.T) {
	one := tarred(t, "a")
	packer, err := zstd.NewWriter(nil)
	if err != nil {
		t.Fatal(err)
	}
	packed := packer.EncodeAll(one, nil)
	broken := bytes.Clone(one)
	broken[0] = 'b' // the sum of the header is another one then
	for name, test := range map[string]struct {
		data []byte
		is   bool
	}{
		"nothing":                  {nil, false},
		"a text":                   {[]byte("hello\n"), false},
		"a long text":              {[]byte(strings.Repeat("hello\n", 1000)), false},
		"zeros":                    {make([]byte, 4096), false},
		"a tar":                    {one, true},
		"a tar without an end":     {one[:512], true},
		"a header that is cut":     {one[:500], false},
		"a header with a fault":    {broken, false},
		"a tar with no entry":      {tarred(t), false},
		"a tar by gzip":            {gzipped(t, one), true},
		"a text by gzip":           {gzipped(t, []byte("hello\n")), false},
		"the beginning of a gzip":  {[]byte{0x1f, 0x8b, 0x08}, false},
		"a tar by zstd":            {packed, true},
		"a frame that is skipped":  {append(unhex(t, "502a4d1800000000"), packed...), true},
		"the beginning of a zstd":  {unhex(t, "28b52ffd"), false},
		"a tar by xz":              {byXZ(t, one, 1<<20, 4, 1<<16), true},
		"a text by xz":             {byXZ(t, []byte("hello\n"), 1<<20, 4, 1<<16), false},
		"the beginning of an xz":   {[]byte("\xfd7zXZ\x00"), false},
		"the beginning of a bzip2": {[]byte("BZh91AY&SY"), false},
	} {
		if is := Is(bytes.NewReader(test.data)); is != test.is {
			t.Errorf("%s: %v", name, is)
		}
	}
}
