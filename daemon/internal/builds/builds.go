// Package builds keeps the builds that run now by their refs: each with its progress, its results and its bounds.
package builds

import (
	"context"
	"slices"
	"sync"
	"sync/atomic"
	"time"

	gateway "github.com/moby/buildkit/frontend/gateway/pb"
	"github.com/moby/buildkit/solver/pb"
	spb "github.com/moby/buildkit/sourcepolicy/pb"
	"google.golang.org/grpc/codes"
	"google.golang.org/grpc/status"
	"llbm/daemon/internal/machine"
	"llbm/daemon/internal/results"
	"llbm/daemon/internal/sessions"
	"llbm/daemon/internal/sources"
	"llbm/daemon/internal/standins"
)

const (
	// patience bounds the wait for a build: a client calls Solve, Status and the gateway at once.
	patience = time.Minute
	// lateness is how long a build's progress can be read after its end.
	lateness = time.Minute
	// mostResults bounds the results of a build that its frontends have names for.
	mostResults = 1024
	// mostFrontends bounds the frontends of a build that run at once, one calling the other.
	mostFrontends = 8
	// mostOfBuild bounds the bytes of messages, definitions and progress that a build holds in memory, and mostOfAll those of all.
	mostOfBuild = 256 << 20
	mostOfAll   = 1 << 30
)

// A Shared is what all builds share.
type Shared struct {
	Program  *machine.Program // llbm
	Rules    *machine.Ahead   // llbm-rules, which compares, or nil
	Sessions *sessions.Sessions
	Keeper   *sources.Keeper
	Platform pb.Platform // the worker's
}

// A Build is one call of Solve, up to a short time after its end.
type Build struct {
	Ref, Session string
	User         uint32
	Context      context.Context // ends with the call of Solve
	Events       *Events
	Returned     chan *gateway.ReturnRequest
	Shown        *Shown
	Shared       *Shared
	Sources      sources.Once
	Written      atomic.Int64 // how many bytes llbm wrote
	Strict       bool         // whether it fails where BuildKit would make something else; it is set before what is given
	Layers       bool         // whether an image has the layers of BuildKit; it is set before what is given

	all  *Builds
	held int64 // in bytes; the lock of all builds guards it, and isOver
	// isOver is whether nothing more can be held.
	isOver bool

	given     chan struct{} // is closed once these are there
	inputs    map[string]*pb.Definition
	policies  []*spb.Policy
	mu        sync.Mutex
	standIns  standins.Set
	results   map[string]*results.Lazy
	frontends int
	steps     int
	closers   []func()
	ended     bool
}

var errEnded = status.Error(codes.Canceled, "the build has ended")

// Give says what the build was asked for with: inputs for frontends, and policies for sources. It is called once.
func (b *Build) Give(inputs map[string]*pb.Definition, policies []*spb.Policy) {
	b.inputs, b.policies = inputs, policies
	close(b.given)
}

// Given waits for what the build was asked for with.
func (b *Build) Given(ctx context.Context) (map[string]*pb.Definition, []*spb.Policy, error) {
	select {
	case <-b.given:
		return b.inputs, b.policies, nil
	case <-b.Context.Done():
		return nil, nil, errEnded
	case <-ctx.Done():
		return nil, nil, status.FromContextError(ctx.Err()).Err()
	}
}

// AddResult keeps a result for the build's frontends by its ID, which may be used until the build ends.
func (b *Build) AddResult(result *results.Lazy) error {
	b.mu.Lock()
	defer b.mu.Unlock()
	if b.ended {
		return errEnded
	}
	if len(b.results) >= mostResults {
		return status.Errorf(codes.ResourceExhausted, "the build has %d results, and no more may be kept", mostResults)
	}
	b.results[result.ID] = result
	return nil
}

// Result returns the result with an ID, or nil.
func (b *Build) Result(id string) *results.Lazy {
	b.mu.Lock()
	defer b.mu.Unlock()
	return b.results[id]
}

// Hold counts bytes that the build holds in memory from now on, until they are freed or the build ends.
func (b *Build) Hold(n int) error { return b.all.hold(b, int64(n)) }

// Free ends the hold of bytes.
func (b *Build) Free(n int) { b.all.free(b, int64(n)) }

// AddStandIns adds stand-ins for executions after those that the build has.
func (b *Build) AddStandIns(more standins.Set) {
	b.mu.Lock()
	defer b.mu.Unlock()
	b.standIns = standins.Set{Rules: slices.Concat(b.standIns.Rules, more.Rules), Skips: b.standIns.Skips || more.Skips}
}

// StandIns returns the stand-ins that the build's client and its frontends have asked for.
func (b *Build) StandIns() standins.Set {
	b.mu.Lock()
	defer b.mu.Unlock()
	return b.standIns
}

// AddSteps counts vertices that the build has to work on.
func (b *Build) AddSteps(n int) {
	b.mu.Lock()
	b.steps += n
	b.mu.Unlock()
}

// Steps returns how many vertices the build had to work on.
func (b *Build) Steps() int {
	b.mu.Lock()
	defer b.mu.Unlock()
	return b.steps
}

// OnEnd calls a function when the build ends, or at once if it has ended.
func (b *Build) OnEnd(closer func()) {
	b.mu.Lock()
	ended := b.ended
	if !ended {
		b.closers = append(b.closers, closer)
	}
	b.mu.Unlock()
	if ended {
		closer()
	}
}

// EnterFrontend counts a frontend that begins to run. The caller has to call the function that it returns.
func (b *Build) EnterFrontend() (leave func(), err error) {
	b.mu.Lock()
	defer b.mu.Unlock()
	if b.frontends >= mostFrontends {
		return nil, status.Errorf(codes.ResourceExhausted, "%d frontends of the build run, and no more may", mostFrontends)
	}
	b.frontends++
	return func() {
		b.mu.Lock()
		b.frontends--
		b.mu.Unlock()
	}, nil
}

// Builds are those that run, at most some of them, and those that have ended a short time ago.
type Builds struct {
	Shared  *Shared // what they share; it is set before the first one starts
	most    int
	mu      sync.Mutex
	added   chan struct{} // is closed when a build is added
	byRef   map[string]*Build
	running int
	ended   []*Build // those that have ended, the first one first
	held    int64    // by all, in bytes
}

// New keeps at most some builds at once.
func New(most int) *Builds {
	return &Builds{most: most, added: make(chan struct{}), byRef: map[string]*Build{}}
}

// Running returns how many builds have not ended.
func (bs *Builds) Running() int {
	bs.mu.Lock()
	defer bs.mu.Unlock()
	return bs.running
}

// Start adds a build. Its caller has to end it.
func (bs *Builds) Start(ctx context.Context, user uint32, ref, session string) (*Build, error) {
	bs.mu.Lock()
	defer bs.mu.Unlock()
	if ref == "" {
		return nil, status.Error(codes.InvalidArgument, "the build has no ref")
	}
	if _, ok := bs.byRef[ref]; ok {
		return nil, status.Errorf(codes.AlreadyExists, "a build %q is there already", ref)
	}
	if bs.running >= bs.most {
		return nil, status.Errorf(codes.ResourceExhausted, "%d builds run, and no more may", bs.most)
	}
	b := &Build{
		Ref: ref, Session: session, User: user, Context: ctx, Returned: make(chan *gateway.ReturnRequest, 1), Shown: newShown(), Shared: bs.Shared,
		all: bs, given: make(chan struct{}), results: map[string]*results.Lazy{},
	}
	b.Events = newEvents(b.Hold)
	bs.byRef[ref] = b
	bs.running++
	close(bs.added)
	bs.added = make(chan struct{})
	return b, nil
}

// End ends a build: its results are closed, and its progress can be read for a short time.
func (bs *Builds) End(b *Build) {
	b.mu.Lock()
	closers := b.closers
	b.closers, b.results, b.ended = nil, nil, true
	b.mu.Unlock()
	for _, closer := range closers {
		closer()
	}
	b.Sources.Forget()
	// Nothing but the progress is kept.
	rest := &Build{Ref: b.Ref, User: b.User, Context: b.Context, Events: b.Events, held: int64(b.Events.end()), all: bs, isOver: true, ended: true}
	bs.mu.Lock()
	b.isOver = true
	bs.running--
	bs.held -= b.held - rest.held
	bs.byRef[b.Ref] = rest
	bs.ended = append(bs.ended, rest)
	if len(bs.ended) > bs.most {
		bs.forget(0)
	}
	bs.mu.Unlock()
	time.AfterFunc(lateness, func() {
		bs.mu.Lock()
		defer bs.mu.Unlock()
		if place := slices.Index(bs.ended, rest); place >= 0 {
			bs.forget(place)
		}
	})
}

// forget gives up the progress of a build that has ended.
func (bs *Builds) forget(place int) {
	b := bs.ended[place]
	bs.ended = slices.Delete(bs.ended, place, place+1)
	delete(bs.byRef, b.Ref)
	bs.held -= b.held
}

// hold counts bytes of a build. Builds that have ended give up their progress if there is no room for them.
func (bs *Builds) hold(b *Build, n int64) error {
	bs.mu.Lock()
	defer bs.mu.Unlock()
	if b.isOver {
		return errEnded
	}
	if b.held+n > mostOfBuild {
		return status.Errorf(codes.ResourceExhausted, "the build holds %d bytes in memory, and with %d more it would hold more than %d", b.held, n, mostOfBuild)
	}
	for bs.held+n > mostOfAll && len(bs.ended) > 0 {
		bs.forget(0)
	}
	if bs.held+n > mostOfAll {
		return status.Errorf(codes.ResourceExhausted, "all builds hold %d bytes in memory, and with %d more they would hold more than %d", bs.held, n, mostOfAll)
	}
	b.held += n
	bs.held += n
	return nil
}

// free ends the hold of bytes of a build, unless it has ended, which did that.
func (bs *Builds) free(b *Build, n int64) {
	bs.mu.Lock()
	defer bs.mu.Unlock()
	if !b.isOver {
		b.held -= n
		bs.held -= n
	}
}

// Get returns a user's build, which may start a little later.
func (bs *Builds) Get(ctx context.Context, user uint32, ref string) (*Build, error) {
	timer := time.NewTimer(patience)
	defer timer.Stop()
	for {
		bs.mu.Lock()
		b, ok := bs.byRef[ref]
		added := bs.added
		bs.mu.Unlock()
		if ok && b.User == user {
			return b, nil
		}
		select {
		case <-added:
			continue
		case <-timer.C:
		case <-ctx.Done():
			return nil, status.FromContextError(ctx.Err()).Err()
		}
		return nil, status.Errorf(codes.NotFound, "no such job %s", ref)
	}
}
