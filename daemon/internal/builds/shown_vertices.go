package builds

import (
	"sync"
	"time"

	controlapi "github.com/moby/buildkit/api/services/control"
	digest "github.com/opencontainers/go-digest"
	"llbm/daemon/internal/messages"
)

// Shown are the vertices of a build that have been shown as done, and the notes that have been shown; what two results need
// is shown once.
type Shown struct {
	mu    sync.Mutex
	done  map[digest.Digest]bool
	noted map[string]bool
}

func newShown() *Shown { return &Shown{done: map[digest.Digest]bool{}, noted: map[string]bool{}} }

// Has returns whether a vertex has been shown as done.
func (s *Shown) Has(d digest.Digest) bool {
	s.mu.Lock()
	defer s.mu.Unlock()
	return s.done[d]
}

// Add says that a vertex is shown as done.
func (s *Shown) Add(d digest.Digest) {
	s.mu.Lock()
	defer s.mu.Unlock()
	s.done[d] = true
}

// Note returns whether a note is still to be shown; it is shown from now on.
func (s *Shown) Note(key string) bool {
	s.mu.Lock()
	defer s.mu.Unlock()
	before := s.noted[key]
	s.noted[key] = true
	return !before
}

// What is shown of caches that a build was asked to use.
const (
	Caches    = "cache imports and exports"
	NoImports = "no cache is imported: llbmd keeps nothing but sources"
)

// Warn shows a warning of the build itself, once, as that of a vertex with a name.
func (b *Build) Warn(name, short string) {
	if !b.Shown.Note(name + ": " + short) {
		return
	}
	now := time.Now()
	d := digest.FromString(name)
	b.Events.Add(&controlapi.StatusResponse{
		Vertexes: []*controlapi.Vertex{{Digest: d, Name: name, Started: &now, Completed: &now}},
		Warnings: []*controlapi.VertexWarning{{Vertex: d, Level: 1, Short: []byte(messages.Text(short))}},
	})
}
