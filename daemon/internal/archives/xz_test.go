package archives

import (
	"bytes"
	"io"
	"math/rand"
	"testing"

	"github.com/ulikunitz/xz"
)

// byXZ packs data in blocks of some size, with checks of a kind.
func byXZ(t *testing.T, data []byte, block int64, kind byte, dictionary int) []byte {
	t.Helper()
	var made bytes.Buffer
	config := xz.WriterConfig{BlockSize: block, CheckSum: kind, DictCap: dictionary}
	to, err := config.NewWriter(&made)
	if err != nil {
		t.Fatal(err)
	}
	if _, err := to.Write(data); err != nil {
		t.Fatal(err)
	}
	if err := to.Close(); err != nil {
		t.Fatal(err)
	}
	return made.Bytes()
}

func TestWhatXZPacksIsUnpacked(t *testing.T) {
	random := rand.New(rand.NewSource(1))
	for _, size := range []int{0, 1, 1000, 100_000} {
		data := make([]byte, size)
		for i := range data {
			data[i] = "abcd"[random.Intn(4)]
		}
		for _, kind := range []byte{xz.CRC32, xz.CRC64, xz.SHA256} {
			for _, block := range []int64{777, 1 << 20} {
				packed := byXZ(t, data, block, kind, 1<<16)
				twice := append(append(bytes.Clone(packed), 0, 0, 0, 0), packed...)
				for _, one := range [][]byte{packed, twice} {
					inside, err := Open(bytes.NewReader(one))
					if err != nil {
						t.Fatal(err)
					}
					got, err := io.ReadAll(inside)
					if err != nil || len(got)%max(1, size) != 0 || !bytes.HasPrefix(got, data) || len(one) == len(twice) && len(got) != 2*size {
						t.Errorf("%d bytes, blocks of %d, checks %d: %d bytes, %v", size, block, kind, len(got), err)
					}
				}
			}
		}
	}
}

func TestADamagedXZIsRefused(t *testing.T) {
	const text = "hello, hello, hello"
	packed := byXZ(t, []byte(text), 1<<20, xz.CRC64, 1<<16)
	isRefused := func(data []byte) bool {
		inside, err := Open(bytes.NewReader(data))
		var got []byte
		if err == nil {
			got, err = io.ReadAll(inside)
		}
		return err != nil || string(got) == text && len(data) == len(packed) // the size of a piece is not needed
	}
	for end := 6; end < len(packed); end++ {
		if !isRefused(packed[:end]) {
			t.Errorf("the first %d bytes of %d were taken", end, len(packed))
		}
	}
	for at := 6; at < len(packed)-28; at++ { // up to the index and the end, which are not needed
		damaged := bytes.Clone(packed)
		damaged[at] ^= 0x10
		if !isRefused(damaged) {
			t.Errorf("another byte %d was taken", at)
		}
	}
}

func TestTheMemoryOfAnXZIsBounded(t *testing.T) {
	if _, err := io.ReadAll(must(t, byXZ(t, []byte("x"), 1<<20, xz.CRC32, mostOfWindow))); err != nil {
		t.Error(err)
	}
	if _, err := io.ReadAll(must(t, byXZ(t, []byte("x"), 1<<20, xz.CRC32, mostOfWindow+1))); err == nil {
		t.Error("a dictionary past the bound was taken")
	}
}

func must(t *testing.T, data []byte) io.Reader {
	t.Helper()
	inside, err := Open(bytes.NewReader(data))
	if err != nil {
		t.Fatal(err)
	}
	return inside
}
