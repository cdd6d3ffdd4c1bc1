package contents

import (
	"bytes"
	"io"
	"os"
	"strings"
	"testing"

	"golang.org/x/sys/unix"
	"google.golang.org/grpc/codes"
	"google.golang.org/grpc/status"
)

func stored(t *testing.T, most int64, texts ...string) (*Store, *Pack, []Ref) {
	t.Helper()
	store, err := New(t.TempDir(), most)
	if err != nil {
		t.Fatal(err)
	}
	pack, err := store.NewPack()
	if err != nil {
		t.Fatal(err)
	}
	var refs []Ref
	for _, text := range texts {
		ref, err := pack.Reserve(int64(len(text)))
		if err != nil {
			t.Fatal(err)
		}
		if err := ref.WriteAt([]byte(text), 0); err != nil {
			t.Fatal(err)
		}
		refs = append(refs, ref)
	}
	return store, pack, refs
}

func TestTokensAndLiteralBytesAreReadAsOneContent(t *testing.T) {
	_, _, refs := stored(t, 100, "hello", "", "world")
	table := NewTable()
	var tokens [][]byte
	for _, ref := range refs {
		token, err := table.Add(ref)
		if err != nil {
			t.Fatal(err)
		}
		tokens = append(tokens, token)
	}
	text := bytes.Join([][]byte{[]byte("<"), tokens[0], []byte(", "), tokens[1], tokens[2], []byte(">")}, nil)
	want := "<hello, world>"
	c, err := table.Content(text)
	if err != nil || c.Size != int64(len(want)) {
		t.Fatal(c.Size, err)
	}
	for offset := 0; offset <= len(want)+1; offset++ {
		for most := -1; most <= len(want); most++ {
			got, err := io.ReadAll(c.Reader(int64(offset), int64(most)))
			rest := want[min(offset, len(want)):]
			if most >= 0 {
				rest = rest[:min(most, len(rest))]
			}
			if err != nil || string(got) != rest {
				t.Fatalf("%d %d: %q, %v", offset, most, got, err)
			}
		}
	}
}

func TestATokenThatIsNoneIsRefused(t *testing.T) {
	table := NewTable()
	for _, text := range []string{"\xff", "a\xff\x00\x00\x00", "\xff\x00\x00\x00\x00", "\xff\xff\xff\xff\xff"} {
		if _, err := table.Content([]byte(text)); err == nil {
			t.Errorf("%q was read", text)
		}
	}
}

func TestWithoutATableBytesAreLiteral(t *testing.T) {
	var table *Table
	c, err := table.Content([]byte("\xff\x00"))
	got, _ := io.ReadAll(c.Reader(0, -1))
	if err != nil || string(got) != "\xff\x00" {
		t.Errorf("%q %v", got, err)
	}
	table.Close()
}

func TestAFullStoreRefusesAndGoesOn(t *testing.T) {
	store, pack, _ := stored(t, 10, strings.Repeat("a", 8))
	if _, err := pack.Reserve(3); status.Code(err) != codes.ResourceExhausted {
		t.Error(err)
	}
	other, err := store.NewPack()
	if err != nil {
		t.Fatal(err)
	}
	if _, err := other.Reserve(2); err != nil {
		t.Error(err)
	}
	pack.Drop()
	if _, err := other.Reserve(8); err != nil {
		t.Error(err)
	}
}

func TestAFullStoreIsFreedBeforeItRefuses(t *testing.T) {
	store, pack, _ := stored(t, 10, strings.Repeat("a", 8))
	freed := 0
	store.WhenFull(func() bool {
		freed++
		if freed == 1 {
			pack.Drop()
		}
		return freed == 1
	})
	other, _ := store.NewPack()
	if _, err := other.Reserve(9); err != nil || freed != 1 {
		t.Error(err, freed)
	}
	if _, err := other.Reserve(11); status.Code(err) != codes.ResourceExhausted || freed != 1 {
		t.Error(err, freed)
	}
}

// A smallDisk has room for some bytes, together with others.
type smallDisk struct {
	disk
	room *int
}

func (d smallDisk) WriteAt(data []byte, at int64) (int, error) {
	if *d.room < len(data) {
		return 0, &os.PathError{Op: "write", Path: "small", Err: unix.ENOSPC}
	}
	*d.room -= len(data)
	return d.disk.WriteAt(data, at)
}

func (d smallDisk) Close() error {
	*d.room = 8
	return d.disk.Close()
}

func TestAFullDiskIsFreedBeforeItRefuses(t *testing.T) {
	store, pack, _ := stored(t, 100)
	room := 8
	pack.file = smallDisk{pack.file, &room}
	if _, err := pack.Write([]byte("12345678")); err != nil {
		t.Fatal(err)
	}
	freed := 0
	store.WhenFull(func() bool {
		if freed++; freed == 1 {
			pack.Drop()
		}
		return freed == 1
	})
	other, _ := store.NewPack()
	other.file = smallDisk{other.file, &room}
	if _, err := other.Write([]byte("abcdefg")); err != nil || freed != 1 {
		t.Error(err, freed)
	}
	got := make([]byte, 7)
	if _, err := other.All().ReadAt(got, 0); err != nil || string(got) != "abcdefg" {
		t.Errorf("%q %v", got, err)
	}
	if _, err := other.Write([]byte("12")); status.Code(err) != codes.ResourceExhausted || freed != 2 {
		t.Error(err, freed)
	}
}

func TestADroppedPackTakesNothingOnDiskWhoeverHasItsFile(t *testing.T) {
	_, pack, _ := stored(t, 100, "abc")
	other, err := unix.Dup(int(pack.file.(*os.File).Fd()))
	if err != nil {
		t.Fatal(err)
	}
	defer func() { _ = unix.Close(other) }()
	pack.Drop()
	var now unix.Stat_t
	if err := unix.Fstat(other, &now); err != nil || now.Size != 0 || now.Blocks != 0 {
		t.Error(now.Size, now.Blocks, err)
	}
}

func TestAStoreSuitsItsDisk(t *testing.T) {
	for free, want := range map[int64]int64{0: 64 << 20, 1 << 30: 1 << 29, 1 << 40: 10 << 30} {
		if got := byDefault(free); got != want {
			t.Error(free, got)
		}
	}
	store, err := New(t.TempDir(), 0)
	if err != nil || store.most < leastByDefault || store.most > mostByDefault {
		t.Error(store, err)
	}
	if _, err := New("/nonexistent", 0); err == nil {
		t.Error("there is a store in a folder that is not there")
	}
}

func TestAPackLastsAsLongAsATableHoldsIt(t *testing.T) {
	store, pack, refs := stored(t, 10, "abc")
	table := NewTable()
	token, _ := table.Add(refs[0])
	pack.Drop()
	c, err := table.Content(token)
	got, readErr := io.ReadAll(c.Reader(0, -1))
	if err != nil || readErr != nil || string(got) != "abc" || store.Used() != 3 {
		t.Errorf("%q %v %v %d", got, err, readErr, store.Used())
	}
	table.Close()
	if store.Used() != 0 {
		t.Error(store.Used())
	}
}

func TestAStoreHasNoNames(t *testing.T) {
	store, _, _ := stored(t, 10, "abc")
	left, err := os.ReadDir(store.folder)
	if err != nil || len(left) != 0 {
		t.Error(left, err)
	}
}
