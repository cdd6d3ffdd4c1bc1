package sources

import (
	"container/list"
	"context"
	"crypto/sha256"
	"encoding/hex"
	"errors"
	"fmt"
	"sync"
	"time"

	"github.com/moby/buildkit/session"
	"github.com/moby/buildkit/session/filesync"
	"google.golang.org/grpc/codes"
	"google.golang.org/grpc/metadata"
	"google.golang.org/grpc/status"
	"llbm/daemon/internal/contents"
	"llbm/daemon/internal/messages"
)

const (
	// mostKept and mostOfKept bound the sources that are kept after their builds, and the memory of what is known of them.
	mostKept   = 64
	mostOfKept = 64 << 20
	// mostOfDescription bounds what disk usage says of a source.
	mostOfDescription = 200
)

// A key names a source that is kept. Sources of one user are not another's. The shared key is the client's name for itself and
// its directory.
type key struct {
	user                        uint32
	name, hint, shared, filters string
}

func keyOf(user uint32, caller session.Caller, r Request) key {
	return key{user, r.Name, r.SharedKeyHint, caller.SharedKey(), r.filters}
}

type kept struct {
	key      key
	manifest *Manifest
	created  time.Time
	used     time.Time
	times    int
	words    string // what is said of the source
}

// A Keeper fetches sources, and keeps the last ones in a store.
//
// What is kept of a source spares the client to send a file again whose size, time, mode and owner are as before. It is used only
// if the client's session has a shared key, by which the client says that it means the same directory: without one, directories
// with one name would be taken for one.
type Keeper struct {
	store    *contents.Store
	leaveOut bool
	idle     time.Duration
	mu       sync.Mutex
	order    *list.List // of *kept, the last used first
	byKey    map[key]*list.Element
	memory   int // of all that is kept
}

// OpenKeeper keeps sources in a store of its own, in a folder and with a bound of bytes (package contents says which).
func OpenKeeper(folder string, bytes int64, leaveOut bool, idle time.Duration) (*Keeper, error) {
	store, err := contents.New(folder, bytes)
	if err != nil {
		return nil, err
	}
	return NewKeeper(store, leaveOut, idle), nil
}

// NewKeeper keeps sources in a store, and gives them up when it is full. A client that sends nothing for the idle time is
// given up too. With leaveOut, links and special files are left out of sources.
func NewKeeper(store *contents.Store, leaveOut bool, idle time.Duration) *Keeper {
	k := &Keeper{store: store, leaveOut: leaveOut, idle: idle, order: list.New(), byKey: map[key]*list.Element{}}
	store.WhenFull(func() bool { return k.dropLast() != nil })
	return k
}

// A Transfer is a source that a build wants.
type Transfer struct {
	Request
	Anew     bool              // whether each file is read, and nothing is kept
	Progress func(bytes int64) // is called with the bytes of contents that have come so far
	Hold     func(n int) error // counts bytes of the build in memory, or refuses them
}

// Fetch copies a source from a session. The caller has to drop the manifest.
func (k *Keeper) Fetch(ctx context.Context, user uint32, caller session.Caller, r Transfer) (*Manifest, error) {
	if !caller.Supports(session.MethodURL("moby.filesync.v1.FileSync", "diffcopy")) {
		return nil, status.Errorf(codes.FailedPrecondition, "llbm: fault 121 %s (the client's session offers no local sources)", r.Name)
	}
	options := Options{Name: r.Name, LeaveOut: k.leaveOut, Progress: r.Progress, Hold: r.Hold}
	id := keyOf(user, caller, r.Request)
	if r.Anew || id.shared == "" {
		k.forget(id)
		return k.receive(ctx, caller, r.Request, options)
	}
	before := k.take(id)
	defer func() {
		if before != nil {
			before.Drop()
		}
	}()
	if r.ByMetadata {
		options.Before = before
	}
	manifest, err := k.receive(ctx, caller, r.Request, options)
	if status.Code(err) == codes.ResourceExhausted && before != nil {
		// What was kept of this source may be what fills the store.
		k.forget(id)
		before.Drop()
		before, options.Before = nil, nil
		manifest, err = k.receive(ctx, caller, r.Request, options)
	}
	if err != nil {
		return nil, err
	}
	k.keep(id, r.words(), manifest)
	return manifest, nil
}

// ofImages are the filters of what is kept of images, which no local source has.
const ofImages = "image"

// Image returns the tree of an image for a platform, with a hold of it. The tree of a manifest is kept by the manifest's digest. One
// without a digest is read each time.
func (k *Keeper) Image(user uint32, name, manifest string, read func() (*Manifest, error)) (*Manifest, error) {
	id := key{user: user, name: "image", shared: manifest, filters: ofImages}
	if manifest != "" {
		if found := k.take(id); found != nil {
			return found, nil
		}
	}
	found, err := read()
	if err == nil && manifest != "" {
		k.keep(id, messages.Text(fmt.Sprintf("image %.*s", mostOfDescription, name)), found)
	}
	return found, err
}

// Idle is how long a client may send nothing.
func (k *Keeper) Idle() time.Duration { return k.idle }

// Store is where contents are.
func (k *Keeper) Store() *contents.Store { return k.store }

// LeavesOut is whether links and special files are left out of sources.
func (k *Keeper) LeavesOut() bool { return k.leaveOut }

func (k *Keeper) receive(ctx context.Context, caller session.Caller, r Request, options Options) (*Manifest, error) {
	ctx, cancel := context.WithCancelCause(metadata.NewOutgoingContext(ctx, r.headers()))
	defer cancel(nil)
	timer := time.AfterFunc(k.idle, func() { cancel(errIdle) })
	defer timer.Stop()
	stream, err := filesync.NewFileSyncClient(caller.Conn()).DiffCopy(ctx)
	if err != nil {
		return nil, err
	}
	manifest, err := Receive(&watched{stream, timer, k.idle}, k.store, options)
	if err != nil && errors.Is(context.Cause(ctx), errIdle) {
		return nil, status.Errorf(codes.DeadlineExceeded, "local source %s: the client sent nothing for %s", r.Name, k.idle)
	}
	return manifest, err
}

var errIdle = errors.New("nothing came")

// watched puts off the end of a stream with each message. The time in which the last one was worked on does not count.
type watched struct {
	Stream
	timer *time.Timer
	idle  time.Duration
}

func (w *watched) RecvMsg(message any) error {
	w.timer.Reset(w.idle)
	err := w.Stream.RecvMsg(message)
	w.timer.Reset(w.idle)
	return err
}

// take returns what is kept of a source, with a hold of it, or nil.
func (k *Keeper) take(id key) *Manifest {
	k.mu.Lock()
	defer k.mu.Unlock()
	at, ok := k.byKey[id]
	if !ok {
		return nil
	}
	one := at.Value.(*kept)
	one.used = time.Now()
	one.times++
	k.order.MoveToFront(at)
	one.manifest.Hold()
	return one.manifest
}

// keep keeps a manifest in the place of what was kept of its source.
func (k *Keeper) keep(id key, words string, manifest *Manifest) {
	manifest.Hold()
	k.mu.Lock()
	one := &kept{key: id, manifest: manifest, created: time.Now(), used: time.Now(), words: words}
	var dropped []*kept
	if at, ok := k.byKey[id]; ok {
		dropped = append(dropped, k.remove(at))
	}
	k.byKey[id] = k.order.PushFront(one)
	k.memory += one.memory()
	for k.order.Len() > mostKept || k.memory > mostOfKept {
		dropped = append(dropped, k.remove(k.order.Back()))
	}
	k.mu.Unlock()
	for _, one := range dropped {
		one.manifest.Drop()
	}
}

// Forget gives up what is kept of a source.
func (k *Keeper) Forget(user uint32, caller session.Caller, r Request) {
	k.forget(keyOf(user, caller, r))
}

func (k *Keeper) forget(id key) {
	k.mu.Lock()
	var dropped *kept
	if at, ok := k.byKey[id]; ok {
		dropped = k.remove(at)
	}
	k.mu.Unlock()
	if dropped != nil {
		dropped.manifest.Drop()
	}
}

func (k *Keeper) remove(at *list.Element) *kept {
	one := k.order.Remove(at).(*kept)
	delete(k.byKey, one.key)
	k.memory -= one.memory()
	return one
}

// dropLast gives up the source that was used least recently, or returns nil if none is kept.
func (k *Keeper) dropLast() *kept {
	k.mu.Lock()
	at := k.order.Back()
	if at == nil {
		k.mu.Unlock()
		return nil
	}
	one := k.remove(at)
	k.mu.Unlock()
	one.manifest.Drop()
	return one
}

// A Usage is what one kept source takes, and what it is: its name and the client's filters.
type Usage struct {
	ID, Words     string
	Bytes         int64
	Created, Used time.Time
	Times         int
}

func (one *kept) usage() Usage {
	return Usage{ID: one.key.id(), Words: one.words, Bytes: one.manifest.Bytes, Created: one.created, Used: one.used, Times: one.times}
}

// id returns a name of the source that is short, and that no other one has.
func (id key) id() string {
	sum := sha256.Sum256([]byte(fmt.Sprintf("%d %q %q %q %q", id.user, id.name, id.hint, id.shared, id.filters)))
	return fmt.Sprintf("%.40s-%s", messages.Text(id.name), hex.EncodeToString(sum[:6]))
}

// memory returns what is held in memory of the source, about.
func (one *kept) memory() int {
	return one.manifest.memory + len(one.key.name) + len(one.key.hint) + len(one.key.shared) + len(one.key.filters)
}

// Usage returns what a user's kept sources take.
func (k *Keeper) Usage(user uint32) []Usage {
	k.mu.Lock()
	defer k.mu.Unlock()
	var out []Usage
	for at := k.order.Front(); at != nil; at = at.Next() {
		if one := at.Value.(*kept); one.key.user == user {
			out = append(out, one.usage())
		}
	}
	return out
}

// Prune gives up a user's kept sources that were last used before some time, the least recently used first, as long as
// they have more bytes than may stay. It returns what they took.
func (k *Keeper) Prune(user uint32, before time.Time, stay int64) []Usage {
	k.mu.Lock()
	var total int64
	for at := k.order.Front(); at != nil; at = at.Next() {
		if one := at.Value.(*kept); one.key.user == user {
			total += one.manifest.Bytes
		}
	}
	var dropped []*kept
	for at := k.order.Back(); at != nil; {
		next := at.Prev()
		one := at.Value.(*kept)
		if one.key.user == user && one.used.Before(before) && (stay == 0 || total > stay) {
			dropped = append(dropped, k.remove(at))
			total -= one.manifest.Bytes
		}
		at = next
	}
	k.mu.Unlock()
	var out []Usage
	for _, one := range dropped {
		out = append(out, one.usage())
		one.manifest.Drop()
	}
	return out
}
