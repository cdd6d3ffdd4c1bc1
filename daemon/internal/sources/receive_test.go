package sources

import (
	"bytes"
	"fmt"
	"io"
	"os"
	"strings"
	"sync"
	"testing"
	"time"
	"unicode/utf8"

	fstypes "github.com/tonistiigi/fsutil/types"
	"google.golang.org/grpc/codes"
	"google.golang.org/grpc/status"
	"llbm/daemon/internal/contents"
)

// A script is the client's end of a transfer: packets that it sends whatever it is asked, and then contents that it is asked
// for, and the end. Asked for a content that it does not have, it answers nothing, and ends after its packets: whether it is
// asked before or after it has sent them makes no difference.
type script struct {
	packets  []*fstypes.Packet
	contents map[uint32]string // what is sent for a number that is asked for, in parts of two bytes
	asked    []uint32
	mu       sync.Mutex
	wake     chan struct{}
	ended    bool // the last entry was sent
	finished bool
}

func (s *script) SendMsg(message any) error {
	p := message.(*fstypes.Packet)
	s.mu.Lock()
	defer s.mu.Unlock()
	switch p.Type {
	case fstypes.PACKET_REQ:
		s.asked = append(s.asked, p.ID)
		text, known := s.contents[p.ID]
		if !known {
			s.finished = true
			break
		}
		for text != "" {
			n := min(2, len(text))
			s.packets = append(s.packets, &fstypes.Packet{Type: fstypes.PACKET_DATA, ID: p.ID, Data: []byte(text[:n])})
			text = text[n:]
		}
		s.packets = append(s.packets, &fstypes.Packet{Type: fstypes.PACKET_DATA, ID: p.ID})
	case fstypes.PACKET_FIN:
		s.packets = append(s.packets, &fstypes.Packet{Type: fstypes.PACKET_FIN})
		s.finished = true
	}
	select {
	case s.wake <- struct{}{}:
	default:
	}
	return nil
}

func (s *script) RecvMsg(message any) error {
	for {
		s.mu.Lock()
		if len(s.packets) > 0 {
			next := s.packets[0]
			s.packets = s.packets[1:]
			s.ended = s.ended || next.Type == fstypes.PACKET_STAT && next.Stat == nil
			s.mu.Unlock()
			data, err := next.Marshal()
			if err != nil {
				return err
			}
			return message.(*fstypes.Packet).Unmarshal(data)
		}
		more := s.ended && !s.finished
		s.mu.Unlock()
		if !more {
			return io.EOF
		}
		<-s.wake
	}
}

func dir(path string) *fstypes.Packet { return stat(path, os.ModeDir|0o755, 0) }

func stat(path string, mode os.FileMode, size int64) *fstypes.Packet {
	return &fstypes.Packet{Type: fstypes.PACKET_STAT, Stat: &fstypes.Stat{Path: path, Mode: uint32(mode), Size_: size, ModTime: 7}}
}

func data(id uint32, text string) *fstypes.Packet {
	return &fstypes.Packet{Type: fstypes.PACKET_DATA, ID: id, Data: []byte(text)}
}

var (
	last = &fstypes.Packet{Type: fstypes.PACKET_STAT}
	fin  = &fstypes.Packet{Type: fstypes.PACKET_FIN}
)

func sends(contents map[uint32]string, packets ...*fstypes.Packet) *script {
	return &script{packets: packets, contents: contents, wake: make(chan struct{}, 1)}
}

func newStore(t testing.TB, most int64) *contents.Store {
	t.Helper()
	store, err := contents.New(t.TempDir(), most)
	if err != nil {
		t.Fatal(err)
	}
	return store
}

func text(t testing.TB, m *Manifest) string {
	t.Helper()
	var out bytes.Buffer
	if err := m.WriteByValue(&out, nil, true); err != nil {
		t.Fatal(err)
	}
	return out.String()
}

func TestATransferBecomesATree(t *testing.T) {
	store := newStore(t, 100)
	client := sends(map[uint32]string{2: "hello", 4: "x"},
		dir("a"), stat("a/.empty", 0o600, 0), stat("a/b", os.ModeSetuid|0o755, 5), dir("a/c"), stat("a-b", 0o644, 1), last)
	m, err := Receive(client, store, Options{Name: "context"})
	if err != nil {
		t.Fatal(err)
	}
	want := "d 0755 0 0 /\nd 0755 0 0 /a\nf 0600 0 0 - /a/.empty\nf 4755 0 0 68656c6c6f /a/b\nd 0755 0 0 /a/c\nf 0644 0 0 78 /a-b\n"
	if got := text(t, m); got != want || m.Bytes != 6 || m.Sent != 6 {
		t.Errorf("%s%d %d", got, m.Bytes, m.Sent)
	}
	m.Drop()
	if store.Used() != 0 {
		t.Error(store.Used())
	}
}

func TestWhatAClientMayNotSendIsRefused(t *testing.T) {
	long := strings.Repeat("x", 256)
	deep := strings.Repeat("a/", 128) + "a"
	for name, c := range map[string]struct {
		client *script
		want   string
	}{
		"a path with ..":            {sends(nil, dir(".."), last), "is no name"},
		"a path with .. inside":     {sends(nil, dir("a"), dir("a/.."), last), "is no name"},
		"an absolute path":          {sends(nil, stat("/a", 0o644, 0), last), "is no name"},
		"a path without text":       {sends(nil, stat("", 0o644, 0), last), "is no name"},
		"an unclean path":           {sends(nil, dir("a"), stat("a//b", 0o644, 0), last), "is no name"},
		"a trailing slash":          {sends(nil, dir("a/"), last), "is no name"},
		"a dot":                     {sends(nil, dir("."), last), "is no name"},
		"a line end":                {sends(nil, stat("a\nf 0644 0 0 - /b", 0o644, 0), last), "is no name"},
		"a name that is no UTF-8":   {sends(nil, stat("\xff", 0o644, 0), last), "is no name"},
		"a long name":               {sends(nil, stat(long, 0o644, 0), last), "is no name"},
		"a deep path":               {sends(nil, stat(deep, 0o644, 0), last), "more than 128 names"},
		"a path twice":              {sends(nil, dir("a"), dir("a"), last), "comes after"},
		"a path out of order":       {sends(nil, dir("b"), dir("a"), last), "comes after"},
		"bytes for names":           {sends(nil, dir("a"), stat("a-b", 0o644, 0), stat("a/b", 0o644, 0), last), "comes after"},
		"a missing directory":       {sends(nil, stat("a/b", 0o644, 0), last), "without its directory"},
		"a file as a directory":     {sends(nil, stat("a", 0o644, 0), stat("a/b", 0o644, 0), last), "without its directory"},
		"a link's empty target":     {sends(nil, symlink("a", ""), last), "a: a symbolic link to"},
		"a link's long target":      {sends(nil, symlink("a", strings.Repeat("b", 4096)), last), "a: a symbolic link to"},
		"a zero in a link's target": {sends(nil, symlink("a", "b\x00"), last), "a: a symbolic link to"},
		"a path below a link":       {sends(nil, symlink("a", "b"), stat("a/c", 0o644, 0), last), "comes without its directory"},
		"a hard link to a link":     {sends(nil, symlink("a", "x"), hardLink("b", "a"), last), "no file"},
		"a device":                  {sends(nil, stat("a", os.ModeDevice|0o600, 0), last), "a is a special file"},
		"a socket":                  {sends(nil, stat("a", os.ModeSocket|0o600, 0), last), "a is a special file"},
		"a pipe":                    {sends(nil, stat("a", os.ModeNamedPipe|0o600, 0), last), "a is a special file"},
		"a size below 0":            {sends(nil, stat("a", 0o644, -1), last), "a size below 0"},
		"a size beyond the store":   {sends(nil, stat("a", 0o644, 1<<62), last), "full"},
		"more than its size":        {sends(map[uint32]string{0: "abcdef"}, stat("a", 0o644, 5), last), "more than its 5 bytes"},
		"less than its size":        {sends(map[uint32]string{0: "abcd"}, stat("a", 0o644, 5), last), "4 bytes came of 5"},
		"data of nothing":           {sends(nil, data(3, "x")), "was not asked for"},
		"data of an empty file":     {sends(nil, stat("a", 0o644, 0), data(0, "x")), "was not asked for"},
		"data of a directory":       {sends(nil, dir("a"), data(0, "x")), "was not asked for"},
		"data after its end": {
			sends(map[uint32]string{0: "abc", 1: "d"}, stat("a", 0o644, 3), data(0, "abc"), data(0, ""), data(0, "x")), "was not asked for",
		},
		"an entry after the last":  {sends(nil, last, dir("a")), "after the last"},
		"an end at once":           {sends(nil, fin), "an early end"},
		"an end before contents":   {sends(nil, stat("a", 0o644, 3), last, fin), "an early end"},
		"an error":                 {sends(nil, &fstypes.Packet{Type: fstypes.PACKET_ERR, Data: []byte("no way")}), "no way"},
		"a request":                {sends(nil, &fstypes.Packet{Type: fstypes.PACKET_REQ}), "a packet of the kind 1"},
		"a packet of no kind":      {sends(nil, &fstypes.Packet{Type: 77}), "a packet of the kind 77"},
		"nothing":                  {sends(nil), "EOF"},
		"an error that is no text": {sends(nil, &fstypes.Packet{Type: fstypes.PACKET_ERR, Data: []byte("no\xff way")}), "no\uFFFD way"},
		"a link to nothing":        {sends(nil, hardLink("a", "b"), last), "no file"},
		"a link to itself":         {sends(nil, hardLink("a", "a"), last), "no file"},
		"a link to a later file":   {sends(nil, hardLink("a", "b"), stat("b", 0o644, 0), last), "no file that came before"},
		"a link to a link":         {sends(nil, stat("a", 0o644, 0), hardLink("b", "a"), hardLink("c", "b"), last), "which is a link"},
		"a link to a directory":    {sends(nil, dir("a"), hardLink("b", "a"), last), "no file"},
		"a link that leads out":    {sends(nil, hardLink("a", "../../etc/passwd"), last), "no file"},
		"a cut transfer":           {sends(nil, dir("a"), stat("b", 0o644, 3), data(1, "ab")), "EOF"},
		"an entry after a refusal": {sends(nil, dir("b"), dir("a"), dir("c"), last), "comes after"},
	} {
		store := newStore(t, 100)
		m, err := Receive(c.client, store, Options{Name: "context"})
		if err == nil || !strings.Contains(err.Error(), c.want) || !strings.Contains(err.Error(), "local source context") || !utf8.ValidString(err.Error()) {
			t.Errorf("%s: %v", name, err)
		}
		if m != nil || store.Used() != 0 {
			t.Errorf("%s: %d bytes are left", name, store.Used())
		}
	}
}

func hardLink(path, target string) *fstypes.Packet {
	p := stat(path, 0o644, 3)
	p.Stat.Linkname = target
	return p
}

func TestAFullStoreIsAStatus(t *testing.T) {
	_, err := Receive(sends(nil, stat("a", 0o644, 101), last), newStore(t, 100), Options{Name: "context"})
	if status.Code(err) != codes.ResourceExhausted {
		t.Error(err)
	}
}

func TestAHardLinkHasTheContentOfItsTarget(t *testing.T) {
	store := newStore(t, 100)
	m, err := Receive(sends(map[uint32]string{0: "abc"}, stat("a", 0o644, 3), hardLink("b", "a"), last), store, Options{})
	if err != nil {
		t.Fatal(err)
	}
	if got := text(t, m); got != "d 0755 0 0 /\nf 0644 0 0 616263 /a\nf 0644 0 0 616263 /b\n" {
		t.Error(got)
	}
}

func TestAFileOfWhichNothingComesIsEmpty(t *testing.T) {
	store := newStore(t, 100)
	client := sends(map[uint32]string{0: "", 2: "abc"}, stat("a", 0o644, 5), hardLink("b", "a"), stat("c", 0o644, 3), stat("d", 0o644, 0), last)
	m, err := Receive(client, store, Options{})
	if err != nil {
		t.Fatal(err)
	}
	if got := text(t, m); got != "d 0755 0 0 /\nf 0644 0 0 - /a\nf 0644 0 0 - /b\nf 0644 0 0 616263 /c\nf 0644 0 0 - /d\n" {
		t.Error(got)
	}
	if m.Bytes != 3 || m.Sent != 3 || store.Used() != 3 || m.EmptiedCount != 1 || fmt.Sprint(m.Emptied) != "[/a]" {
		t.Error(m.Bytes, m.Sent, store.Used(), m.EmptiedCount, m.Emptied)
	}
	m.Drop()
	if store.Used() != 0 {
		t.Error(store.Used())
	}
}

func TestAFileOfWhichNothingCameIsAskedForAgain(t *testing.T) {
	store, at := newStore(t, 100), stat("a", 0o644, 5)
	at.Stat.ModTime = 1_500_000_000_123_456_789
	before, err := Receive(sends(map[uint32]string{0: ""}, at, last), store, Options{})
	if err != nil {
		t.Fatal(err)
	}
	m, err := Receive(sends(map[uint32]string{0: "hello"}, at, last), store, Options{Before: before})
	if err != nil || text(t, m) != "d 0755 0 0 /\nf 0644 0 0 68656c6c6f /a\n" || m.EmptiedCount != 0 {
		t.Error(m, err)
	}
}

func TestTheNamesOfAFileAreKnown(t *testing.T) {
	client := sends(map[uint32]string{1: "abc"},
		stat("a", 0o644, 0), stat("b", 0o644, 3), dir("c"), hardLink("c/d", "b"), hardLink("e", "a"), hardLink("f", "b"), last)
	m, err := Receive(client, newStore(t, 100), Options{})
	if err != nil {
		t.Fatal(err)
	}
	if got := fmt.Sprint(m.HardLinks()); got != "[[b c/d f] [a e]]" {
		t.Error(got)
	}
	want := "d 0755 0 0 /\nf 0644 0 0 - /a\nf 0644 0 0 616263 /b\nd 0755 0 0 /c\nf 0644 0 0 616263 /c/d\nf 0644 0 0 - /e\nf 0644 0 0 616263 /f\n"
	if got := text(t, m); got != want || m.Bytes != 9 || m.Sent != 3 {
		t.Error(got, m.Bytes, m.Sent)
	}
}

func TestExtendedAttributesAreCounted(t *testing.T) {
	with := func(p *fstypes.Packet, names ...string) *fstypes.Packet {
		p.Stat.Xattrs = map[string][]byte{}
		for _, name := range names {
			p.Stat.Xattrs[name] = []byte("x")
		}
		return p
	}
	const label = "security.selinux"
	client := sends(nil, with(dir("a"), label), with(stat("b", 0o644, 0), label, "user.one", "user.other"), with(dir("c"), "user.two"), last)
	m, err := Receive(client, newStore(t, 100), Options{})
	if err != nil || m.Attributed != 2 || m.FirstAttributed != "b (user.one)" {
		t.Errorf("%+v %v", m, err)
	}
}

func TestAClientsErrorIsCut(t *testing.T) {
	long := &fstypes.Packet{Type: fstypes.PACKET_ERR, Data: bytes.Repeat([]byte("ü"), 1<<20)}
	_, err := Receive(sends(nil, long), newStore(t, 100), Options{Name: "context"})
	if want := "local source context: " + strings.Repeat("ü", mostOfMessage); status.Convert(err).Message() != want {
		t.Errorf("%.100s", err)
	}
}

// bound sets a bound for a test.
func bound(t *testing.T, what *int, most int) {
	before := *what
	*what = most
	t.Cleanup(func() { *what = before })
}

func TestTheEntriesAndTheirPathsAreBounded(t *testing.T) {
	bound(t, &mostEntries, 3)
	bound(t, &mostOfPaths, 12)
	fifo, a := stat("a", os.ModeNamedPipe, 0), stat("aaa", 0o644, 0)
	for name, c := range map[string]struct {
		packets []*fstypes.Packet
		want    string
	}{
		"as many as may be":       {[]*fstypes.Packet{dir("a"), dir("b"), stat("cccccccccc", 0o644, 0), last}, ""},
		"entries":                 {[]*fstypes.Packet{dir("a"), dir("b"), dir("c"), dir("d"), last}, "more than 3 entries"},
		"entries that are none":   {[]*fstypes.Packet{fifo, stat("b", os.ModeSocket, 0), dir("c"), dir("d"), last}, "more than 3 entries"},
		"bytes of paths":          {[]*fstypes.Packet{dir("aaaaaa"), dir("bbbbbbb"), last}, "its paths have more than 12 bytes"},
		"bytes of names of links": {[]*fstypes.Packet{a, hardLink("bbb", "aaa"), hardLink("ccc", "aaa"), last}, "its paths have more than 12 bytes"},
		"bytes of targets":        {[]*fstypes.Packet{a, symlink("bbb", "a/target"), last}, "its paths have more than 12 bytes"},
	} {
		m, err := Receive(sends(nil, c.packets...), newStore(t, 100), Options{LeaveOut: true})
		if c.want == "" && err != nil {
			t.Errorf("%s: %v", name, err)
		}
		if c.want != "" && (status.Code(err) != codes.ResourceExhausted || !strings.Contains(err.Error(), c.want)) {
			t.Errorf("%s: %v", name, err)
		}
		if m != nil {
			m.Drop()
		}
	}
}

func TestWhatASourceHoldsInMemoryIsCounted(t *testing.T) {
	held, calls := 0, 0
	hold := func(n int) error {
		calls++
		if held+n > 1<<20 {
			return status.Error(codes.ResourceExhausted, "the build holds too much")
		}
		held += n
		return nil
	}
	packets := []*fstypes.Packet{}
	for i := range 10_000 {
		packets = append(packets, stat(fmt.Sprintf("%08d", i), 0o644, 0))
	}
	m, err := Receive(sends(nil, append(packets[:5_000:5_000], last)...), newStore(t, 100), Options{Hold: hold})
	if err != nil || held < m.memory || held > m.memory+heldAtOnce || calls > 10 {
		t.Error(held, calls, err)
	}
	held = 1 << 19
	_, err = Receive(sends(nil, append(packets, last)...), newStore(t, 100), Options{Name: "context", Hold: hold})
	if status.Code(err) != codes.ResourceExhausted || status.Convert(err).Message() != "local source context: the build holds too much" {
		t.Error(err)
	}
}

func TestSomeTimesTellAChange(t *testing.T) {
	began := time.Unix(1_600_000_000, 5)
	for name, c := range map[string]struct {
		time int64
		read bool
	}{
		"of long ago":             {1_500_000_000_123_456_789, false},
		"of whole seconds":        {1_500_000_000_000_000_000, true},
		"of the transfer itself":  {began.UnixNano(), true},
		"of a second before that": {began.UnixNano() - int64(time.Second), true},
		"of three before that":    {began.UnixNano() - int64(3*time.Second), false},
		"of a later day":          {began.UnixNano() + int64(24*time.Hour), true},
	} {
		store := newStore(t, 100)
		at := stat("a", 0o644, 3)
		at.Stat.ModTime = c.time
		before, err := Receive(sends(map[uint32]string{0: "old"}, at, last), store, Options{})
		if err != nil {
			t.Fatal(err)
		}
		before.began = began
		client := sends(map[uint32]string{0: "new"}, at, last)
		after, err := Receive(client, store, Options{Before: before})
		if err != nil {
			t.Fatal(err)
		}
		if read := len(client.asked) == 1; read != c.read || (after.Unread == 1) == c.read {
			t.Error(name, client.asked, after.Unread)
		}
	}
}

func TestAnUnchangedFileIsNotAskedForAgain(t *testing.T) {
	store := newStore(t, 100)
	first := sends(map[uint32]string{0: "abc", 1: "def", 2: "ghi"}, stat("a", 0o644, 3), stat("b", 0o644, 3), stat("c", 0o644, 3), last)
	before, err := Receive(first, store, Options{})
	if err != nil {
		t.Fatal(err)
	}
	changed := stat("b", 0o644, 3)
	changed.Stat.ModTime = 8
	client := sends(map[uint32]string{1: "DEF", 3: "new"}, stat("a", 0o644, 3), changed, stat("c", 0o600, 0), stat("d", 0o644, 3), last)
	after, err := Receive(client, store, Options{Before: before})
	if err != nil {
		t.Fatal(err)
	}
	if len(client.asked) != 2 || client.asked[0] != 1 || client.asked[1] != 3 || after.Sent != 6 {
		t.Error(client.asked, after.Sent)
	}
	before.Drop()
	if got := text(t, after); got != "d 0755 0 0 /\nf 0644 0 0 616263 /a\nf 0644 0 0 444546 /b\nf 0600 0 0 - /c\nf 0644 0 0 6e6577 /d\n" {
		t.Error(got)
	}
	after.Drop()
	if store.Used() != 0 {
		t.Error(store.Used())
	}
}

func TestASourceDoesNotHoldEverMorePacks(t *testing.T) {
	store := newStore(t, 1000)
	var before *Manifest
	for i := 0; i < 2*mostPacks; i++ {
		changed := stat("b", 0o644, 1)
		changed.Stat.ModTime = int64(i)
		client := sends(map[uint32]string{0: "a", 1: "b"}, stat("a", 0o644, 1), changed, last)
		if i%2 == 0 {
			client = sends(map[uint32]string{0: "a", 1: "b", 2: "c"}, stat("a", 0o644, 1), changed, stat("c"+strings.Repeat("c", i), 0o644, 1), last)
		}
		after, err := Receive(client, store, Options{Before: before})
		if err != nil {
			t.Fatal(err)
		}
		if before != nil {
			before.Drop()
		}
		if before = after; len(after.packs) > mostPacks {
			t.Fatal(len(after.packs))
		}
	}
}

// FuzzReceive sends any packets (checkTransfer).
func FuzzReceive(f *testing.F) {
	for _, packets := range [][]*fstypes.Packet{
		{dir("a"), stat("a/b", 0o644, 3), last, data(1, "abc"), data(1, ""), fin},
		{dir(".."), last, fin},
		{stat("a", 0o644, 1<<40), stat("a", 0o644, 1), last},
		{hardLink("a", "b"), hardLink("b", "a"), last, fin},
		{stat("a", 0o644, 1), hardLink("b", "a"), hardLink("c", "a"), last},
	} {
		var all []byte
		for _, p := range packets {
			data, err := p.Marshal()
			if err != nil {
				f.Fatal(err)
			}
			all = append(append(all, byte(len(data))), data...)
		}
		f.Add(all, false)
	}
	store := newStore(f, 1000)
	f.Fuzz(func(t *testing.T, all []byte, leaveOut bool) {
		client := sends(map[uint32]string{0: "a", 1: "bc", 2: "def"})
		for len(all) > 0 {
			n := min(int(all[0]), len(all)-1)
			p := &fstypes.Packet{}
			if p.Unmarshal(all[1:1+n]) == nil {
				client.packets = append(client.packets, p)
			}
			all = all[1+n:]
		}
		checkTransfer(t, store, client, leaveOut)
	})
}

// checkText checks the rules of docs/FORMATS.md, "The texts of a tree and of a graph".
func checkText(t *testing.T, text string) {
	t.Helper()
	seen, before := map[string]string{"": "d"}, ""
	for i, line := range strings.Split(strings.TrimSuffix(text, "\n"), "\n") {
		fields := map[string]int{"d ": 5, "f ": 6}[line[:2]]
		words := strings.SplitN(line, " ", fields)
		path := words[fields-1]
		if i == 0 {
			continue
		}
		above := path[:strings.LastIndexByte(path, '/')]
		if seen[above] != "d" || seen[path] != "" || strings.ReplaceAll(path, "/", "\x00") <= strings.ReplaceAll(before, "/", "\x00") {
			t.Errorf("%q after %q", path, before)
		}
		seen[path], before = words[0], path
	}
}
