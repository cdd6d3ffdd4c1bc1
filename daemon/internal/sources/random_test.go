package sources

import (
	"math/rand"
	"os"
	"slices"
	"strings"
	"testing"

	fstypes "github.com/tonistiigi/fsutil/types"
	"llbm/daemon/internal/contents"
)

// checkTransfer receives what a client sends: the transfer either fails, or becomes a tree whose text llbm takes, and nothing is left.
// It returns whether the transfer ended well.
func checkTransfer(t *testing.T, store *contents.Store, client *script, leaveOut bool) bool {
	t.Helper()
	m, err := Receive(client, store, Options{LeaveOut: leaveOut})
	if err == nil {
		checkText(t, text(t, m))
		m.Drop()
	}
	if store.Used() != 0 {
		t.Errorf("%d bytes are left after %v", store.Used(), err)
	}
	return err == nil
}

func pick[T any](random *rand.Rand, all ...T) T { return all[random.Intn(len(all))] }

// randomEntry returns an entry that a client may send; most have paths that a tree may have.
func randomEntry(random *rand.Rand) *fstypes.Packet {
	path := pick(random, "a", "a/b", "a/b/c", "b", "b/a", "c")
	if random.Intn(8) == 0 {
		path = pick(random, "..", ".", "", "/a", "a//b", "a/../b", "\xff", "a\x00", "a\n", strings.Repeat("c", 300))
	}
	if random.Intn(8) == 0 {
		return hardLink(path, pick(random, "a", "a/b", "b", "d", path))
	}
	mode := pick[os.FileMode](random, 0o644, 0o4755, os.ModeDir|0o755, os.ModeDir|0o700, os.ModeSymlink|0o777, os.ModeDevice)
	return stat(path, mode, pick[int64](random, 0, 1, 3, 3, 3, 1<<40, -1))
}

// randomTransfer returns packets that a client may send: entries, mostly in order, and what may be beside them.
func randomTransfer(t *testing.T, random *rand.Rand) []*fstypes.Packet {
	t.Helper()
	packets := make([]*fstypes.Packet, random.Intn(6))
	for i := range packets {
		packets[i] = randomEntry(random)
	}
	if random.Intn(8) > 0 {
		slices.SortFunc(packets, func(a, b *fstypes.Packet) int { return strings.Compare(a.Stat.Path, b.Stat.Path) })
	}
	packets = append(packets, last)
	for random.Intn(4) == 0 {
		packets = slices.Insert(packets, random.Intn(len(packets)), pick(random, last, fin, data(uint32(random.Intn(4)), "ab"), data(1, "")))
	}
	if random.Intn(4) == 0 {
		at := random.Intn(len(packets))
		packets[at] = withAnotherByte(t, random, packets[at])
	}
	return packets
}

// withAnotherByte returns the packet with one byte changed at random, or the packet itself where that is none.
func withAnotherByte(t *testing.T, random *rand.Rand, p *fstypes.Packet) *fstypes.Packet {
	t.Helper()
	all, err := p.Marshal()
	if err != nil {
		t.Fatal(err)
	}
	changed := &fstypes.Packet{}
	if len(all) == 0 {
		return p
	}
	all[random.Intn(len(all))] = byte(random.Intn(256))
	if changed.Unmarshal(all) != nil {
		return p
	}
	return changed
}

func TestRandomTransfers(t *testing.T) {
	random, store, well := rand.New(rand.NewSource(1)), newStore(t, 1000), 0
	for i := range 4000 {
		client := sends(map[uint32]string{0: "a", 1: "abc", 2: "def"}, randomTransfer(t, random)...)
		if checkTransfer(t, store, client, random.Intn(2) == 0) {
			well++
		}
		if t.Failed() {
			t.Fatalf("case %d", i)
		}
	}
	if well < 100 {
		t.Errorf("only %d transfers end well", well)
	}
}
