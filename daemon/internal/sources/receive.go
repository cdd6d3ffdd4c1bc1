package sources

import (
	"errors"
	"fmt"
	"io"
	"maps"
	"os"
	"slices"
	"strings"
	"time"
	"unsafe"

	fstypes "github.com/tonistiigi/fsutil/types"
	"google.golang.org/grpc/codes"
	"google.golang.org/grpc/status"
	"llbm/daemon/internal/contents"
	"llbm/daemon/internal/messages"
	"llbm/daemon/internal/paths"
	"llbm/daemon/internal/tree"
)

const (
	mostLeftOut = 10
	mostEmptied = 10
	mostPacks   = 16
	// heldAtOnce is how many bytes at least are counted at once of what is held in memory.
	heldAtOnce = 64 << 10
	// mostOfTarget is how many bytes the target of a symbolic link has at most, and modeOfLink is the mode of each.
	mostOfTarget = 4095
	modeOfLink   = 0o777
	// mostOfMessage bounds what is shown of a client's error.
	mostOfMessage = 1000
	// settled is how much older than a transfer a file's time has to be to tell a later change from it. Clocks of file systems
	// are as coarse as two seconds.
	settled = 2 * time.Second
)

// The bounds of a source: its entries with those that are left out, and the bytes of their paths and of the names that links have.
// llbm takes no longer text of a tree either.
var (
	mostEntries = 2_000_000
	mostOfPaths = 64 << 20
)

// Stream is the receiver's end of a diff copy.
type Stream interface {
	SendMsg(message any) error
	RecvMsg(message any) error
}

// Options say how a source is received.
type Options struct {
	Name     string
	What     string        // what the source is in refusals, if it is no local source
	Before   *Manifest     // what was sent before, or nil
	LeaveOut bool          // devices and sockets are left out instead of refused
	Progress func(n int64) // is called with the number of bytes that have come so far
	// Hold counts bytes that are held in memory, or refuses them; nil does not count.
	Hold func(n int) error
}

// Receive does the receiver's part of a diff copy. It asks for the contents of files that are not as they were before. The
// caller has to drop the manifest. What the client sends is checked: paths, their order, and sizes.
func Receive(stream Stream, store *contents.Store, options Options) (*Manifest, error) {
	pack, err := store.NewPack()
	if err != nil {
		return nil, err
	}
	r := &receiver{
		Options: options, stream: stream, pack: pack, open: map[uint32]*file{}, parents: []string{""},
		manifest: &Manifest{Name: options.Name, began: time.Now(), packs: map[*contents.Pack]bool{pack: true}}, requests: newQueue(stream),
	}
	err = r.run()
	if sendErr := r.requests.close(err == nil); err == nil {
		err = sendErr
	}
	if err != nil {
		r.manifest.Drop()
		return nil, err
	}
	r.finish()
	return r.manifest, nil
}

// finish counts what the manifest has, once all has come. Only then it is known of which files nothing came.
func (r *receiver) finish() {
	for _, l := range r.manifest.links {
		r.manifest.Entries[l.entry].Content = r.manifest.Entries[l.target].Content
	}
	slices.Sort(r.emptied)
	r.manifest.EmptiedCount = len(r.emptied)
	for _, place := range r.emptied[:min(mostEmptied, len(r.emptied))] {
		r.manifest.Emptied = append(r.manifest.Emptied, "/"+r.manifest.Entries[place].Path)
	}
	for i := range r.manifest.Entries {
		r.manifest.Bytes += r.manifest.Entries[i].Content.Size
	}
	r.manifest.memory = r.memory()
}

// A file is one whose content comes.
type file struct {
	entry int
	at    int64
}

type receiver struct {
	Options
	stream   Stream
	pack     *contents.Pack
	manifest *Manifest
	requests *queue
	open     map[uint32]*file
	parents  []string // the directory of the last entry, and those above it, the root first
	last     string
	number   uint32
	before   int // the place in Before that comes next
	paths    int // the bytes of all paths so far
	held     int // the bytes in memory that Hold has counted
	ended    bool
	emptied  []int32       // the places of files of which nothing came
	given    *contents.Ref // the content of the next entry, if it need not be asked for
}

// what returns what the source is, for a person.
func (r *receiver) what() string {
	if r.What != "" {
		return r.What
	}
	return "local source " + r.Name
}

func (r *receiver) refuse(code codes.Code, format string, words ...any) error {
	return status.Error(code, messages.Text(fmt.Sprintf("%s: %s", r.what(), fmt.Sprintf(format, words...))))
}

// run receives packets up to the client's last one, after all contents have come.
func (r *receiver) run() error {
	var p fstypes.Packet
	for allHere := false; ; {
		if r.ended && len(r.open) == 0 && !allHere {
			allHere = true
			r.requests.finish()
		}
		p.Reset()
		if err := r.stream.RecvMsg(&p); err != nil {
			if errors.Is(err, io.EOF) {
				err = io.ErrUnexpectedEOF
			}
			return fmt.Errorf("%s: %w", r.what(), err)
		}
		var err error
		switch p.Type {
		case fstypes.PACKET_ERR:
			err = r.refuse(codes.Unknown, "%.*s", mostOfMessage, p.Data)
		case fstypes.PACKET_STAT:
			err = r.stat(p.Stat)
		case fstypes.PACKET_DATA:
			err = r.data(p.ID, p.Data)
		case fstypes.PACKET_FIN:
			if allHere {
				return nil
			}
			err = r.refuse(codes.InvalidArgument, "an early end")
		default:
			err = r.refuse(codes.InvalidArgument, "a packet of the kind %d", p.Type)
		}
		if err != nil {
			return err
		}
	}
}

// stat takes the next entry, or the end of the entries.
func (r *receiver) stat(st *fstypes.Stat) error {
	if r.ended {
		return r.refuse(codes.InvalidArgument, "an entry after the last one")
	}
	if st == nil {
		r.ended = true
		return nil
	}
	id := r.number
	r.number++
	mode := os.FileMode(st.Mode)
	if err := r.count(st); err != nil {
		return err
	}
	if err := r.checkPath(st.Path, mode.IsDir()); err != nil {
		return err
	}
	if mode&os.ModeType == os.ModeSymlink {
		return r.symlink(st)
	}
	if !mode.IsDir() && !mode.IsRegular() {
		return r.leaveOut(st.Path)
	}
	r.attributes(st)
	e := Entry{Path: st.Path, Dir: mode.IsDir(), Mode: tree.UnixMode(mode), UID: st.Uid, GID: st.Gid, Modified: st.ModTime}
	r.manifest.Entries = append(r.manifest.Entries, e)
	if e.Dir {
		return nil
	}
	if st.Linkname != "" {
		return r.link(st.Linkname)
	}
	return r.content(id, st.Size_)
}

// symlink takes a symbolic link.
func (r *receiver) symlink(st *fstypes.Stat) error {
	if st.Linkname == "" || len(st.Linkname) > mostOfTarget || strings.IndexByte(st.Linkname, 0) >= 0 {
		return r.refuse(codes.InvalidArgument, "%s: a symbolic link to %.80q", st.Path, st.Linkname)
	}
	if r.manifest.FirstLink == "" {
		r.manifest.FirstLink = st.Path
	}
	r.attributes(st)
	e := Entry{Path: st.Path, Mode: modeOfLink, UID: st.Uid, GID: st.Gid, Modified: st.ModTime, Link: st.Linkname}
	r.manifest.Entries = append(r.manifest.Entries, e)
	return nil
}

// count counts an entry, whether it is taken or left out.
func (r *receiver) count(st *fstypes.Stat) error {
	r.paths += len(st.Path) + len(st.Linkname)
	if err := CheckCounts(int(r.number), r.paths); err != nil {
		return r.refuse(status.Code(err), "%s", status.Convert(err).Message())
	}
	more := r.memory() - r.held
	if r.Hold == nil || more <= 0 {
		return nil
	}
	more = max(more, heldAtOnce)
	r.held += more
	if err := r.Hold(more); err != nil {
		return r.refuse(status.Code(err), "%s", status.Convert(err).Message())
	}
	return nil
}

// memory returns how many bytes the entries have in memory, about.
func (r *receiver) memory() int { return r.paths + int(r.number)*int(unsafe.Sizeof(Entry{})) }

// attributes counts an entry with extended attributes. The label that SELinux gives to each file of a host is none of these.
func (r *receiver) attributes(st *fstypes.Stat) {
	names := slices.Sorted(maps.Keys(st.Xattrs))
	names = slices.DeleteFunc(names, func(name string) bool { return name == "security.selinux" })
	if len(names) == 0 {
		return
	}
	if r.manifest.Attributed++; r.manifest.Attributed == 1 {
		r.manifest.FirstAttributed = fmt.Sprintf("%s (%.100s)", st.Path, names[0])
	}
}

// link makes the last entry a further name of a file that came before.
func (r *receiver) link(target string) error {
	place := len(r.manifest.Entries) - 1
	i, ok := r.manifest.place(target)
	if !ok || r.manifest.Entries[i].Dir || r.manifest.Entries[i].Link != "" || i == place {
		return r.refuse(codes.InvalidArgument, "%s: a link to %.80q, which is no file that came before it", r.manifest.Entries[place].Path, target)
	}
	if r.manifest.isLink(i) {
		return r.refuse(codes.InvalidArgument, "%s: a link to %.80q, which is a link", r.manifest.Entries[place].Path, target)
	}
	r.manifest.Entries[place].Content = r.manifest.Entries[i].Content
	r.manifest.links = append(r.manifest.links, link{int32(place), int32(i)})
	return nil
}

// content makes room for the content of the last entry and asks for it, unless it is as it was before.
func (r *receiver) content(id uint32, size int64) error {
	place := len(r.manifest.Entries) - 1
	e := &r.manifest.Entries[place]
	if size < 0 {
		return r.refuse(codes.InvalidArgument, "%s: a size below 0", e.Path)
	}
	if size == 0 {
		return nil
	}
	if r.given != nil {
		e.Content = *r.given
		return nil
	}
	if old := r.same(e, size); old != nil {
		if r.manifest.packs[old.Content.Pack] || len(r.manifest.packs) < mostPacks {
			if !r.manifest.packs[old.Content.Pack] {
				old.Content.Pack.Hold()
				r.manifest.packs[old.Content.Pack] = true
			}
			e.Content = old.Content
			r.manifest.Unread++
			return nil
		}
	}
	var err error
	if e.Content, err = r.pack.Reserve(size); err != nil {
		return r.refuse(status.Code(err), "%s: %s", e.Path, status.Convert(err).Message())
	}
	r.open[id] = &file{entry: place}
	r.requests.ask(id)
	return nil
}

// same returns the entry of before that a file is the same as, by all that the client says of it, if its time tells a change:
// one of whole seconds is mostly one that a tool has set, and a file may have changed within the tick in which it was read.
func (r *receiver) same(e *Entry, size int64) *Entry {
	if r.Before == nil {
		return nil
	}
	for r.before < len(r.Before.Entries) && tree.Compare(r.Before.Entries[r.before].Path, e.Path) < 0 {
		r.before++
	}
	if r.before == len(r.Before.Entries) {
		return nil
	}
	old := &r.Before.Entries[r.before]
	is := old.Path == e.Path && !old.Dir && old.Link == "" && old.Content.Size == size && old.Modified == e.Modified && old.Mode == e.Mode &&
		old.UID == e.UID && old.GID == e.GID
	tells := e.Modified%int64(time.Second) != 0 && e.Modified < r.Before.began.Add(-settled).UnixNano()
	if !is || !tells {
		return nil
	}
	return old
}

// data takes the next part of a content; a part without bytes is its end.
func (r *receiver) data(id uint32, data []byte) error {
	f, ok := r.open[id]
	if !ok {
		return r.refuse(codes.InvalidArgument, "data of file %d, which was not asked for", id)
	}
	e := &r.manifest.Entries[f.entry]
	if len(data) == 0 {
		delete(r.open, id)
		if f.at == 0 {
			r.empty(f.entry)
		} else if f.at != e.Content.Size {
			return r.refuse(codes.Aborted, "%s: %d bytes came of %d: the file has changed", e.Path, f.at, e.Content.Size)
		}
		return nil
	}
	if int64(len(data)) > e.Content.Size-f.at {
		return r.refuse(codes.Aborted, "%s: more than its %d bytes came: the file has changed", e.Path, e.Content.Size)
	}
	if err := e.Content.WriteAt(data, f.at); err != nil {
		return r.refuse(status.Code(err), "%s: %s", e.Path, status.Convert(err).Message())
	}
	f.at += int64(len(data))
	r.manifest.Sent += int64(len(data))
	if r.Progress != nil {
		r.Progress(r.manifest.Sent)
	}
	return nil
}

// empty takes a file of which nothing came as an empty one, as BuildKit does: a client sends so what it may not open, and what the
// filters of a source select by their walk, but not by the file's own path. A file that was cut short is another one at each build,
// so it is refused.
func (r *receiver) empty(place int) {
	e := &r.manifest.Entries[place]
	e.Content.GiveUp()
	e.Content = contents.Ref{}
	r.emptied = append(r.emptied, int32(place))
}

// checkPath checks the path of the next entry: its names, that it comes after the last one, and that its parent came.
func (r *receiver) checkPath(path string, dir bool) error {
	names := strings.Split(path, "/")
	if len(names) > paths.MostNames {
		return r.refuse(codes.InvalidArgument, "%.80q: fault 26: more than %d names", path, paths.MostNames)
	}
	for _, name := range names {
		if !paths.IsName(name) {
			return r.refuse(codes.InvalidArgument, "%.80q: fault 26: %.80q is no name", path, name)
		}
	}
	if r.last != "" && tree.Compare(r.last, path) >= 0 {
		return r.refuse(codes.InvalidArgument, "%.80q comes after %.80q", path, r.last)
	}
	r.last = path
	above := ""
	if i := strings.LastIndexByte(path, '/'); i >= 0 {
		above = path[:i]
	}
	for len(r.parents) > 0 && r.parents[len(r.parents)-1] != above {
		r.parents = r.parents[:len(r.parents)-1]
	}
	if len(r.parents) == 0 {
		return r.refuse(codes.InvalidArgument, "%.80q comes without its directory", path)
	}
	if dir {
		r.parents = append(r.parents, path)
	}
	return nil
}

func (r *receiver) leaveOut(path string) error {
	const kind = "a special file"
	if !r.LeaveOut {
		return r.refuse(codes.Unimplemented, "%s is %s: only directories, files and symbolic links are taken (llbmd -leave-out leaves it out)", path, kind)
	}
	r.manifest.Left++
	if len(r.manifest.LeftOut) < mostLeftOut {
		r.manifest.LeftOut = append(r.manifest.LeftOut, path+" ("+kind+")")
	}
	return nil
}
