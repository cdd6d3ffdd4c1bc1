// Package sessions keeps the sessions of clients, through which sources come and results go. A session is its user's.
package sessions

import (
	"context"
	"net"
	"strings"
	"sync"
	"time"

	"github.com/moby/buildkit/session"
	"google.golang.org/grpc/codes"
	"google.golang.org/grpc/health/grpc_health_v1"
	"google.golang.org/grpc/status"
)

const (
	// patience bounds the wait for a session: clients open one and call Solve at once.
	patience = time.Minute
	// briefly bounds the wait for a session whose build is refused.
	briefly = 5 * time.Second
)

const headerID = "x-docker-expose-session-uuid"

// Sessions are those that are open now, at most some of them.
type Sessions struct {
	manager *session.Manager
	most    int
	mu      sync.Mutex
	briefly time.Duration
	owners  map[string]uint32
}

// New keeps at most some sessions.
func New(most int) (*Sessions, error) {
	manager, err := session.NewManager()
	return &Sessions{manager: manager, most: most, briefly: briefly, owners: map[string]uint32{}}, err
}

// Serve keeps the session of a connection until either is closed.
func (s *Sessions) Serve(ctx context.Context, user uint32, conn net.Conn, headers map[string][]string) error {
	ids := headers[headerID]
	if len(ids) != 1 || ids[0] == "" {
		return status.Error(codes.InvalidArgument, "the session has no ID")
	}
	id := ids[0]
	s.mu.Lock()
	_, taken := s.owners[id]
	full := len(s.owners) >= s.most
	if !taken && !full {
		s.owners[id] = user
	}
	s.mu.Unlock()
	switch {
	case taken:
		return status.Errorf(codes.AlreadyExists, "session %s is open already", id)
	case full:
		return status.Errorf(codes.ResourceExhausted, "%d sessions are open, and no more may be", s.most)
	}
	defer func() {
		s.mu.Lock()
		delete(s.owners, id)
		s.mu.Unlock()
	}()
	return s.manager.HandleConn(ctx, conn, headers)
}

// Settle waits until a session is open and has answered once, or for a short time. A client that ends while its session still
// opens prints an error of the protocol beside that of its build.
func (s *Sessions) Settle(ctx context.Context, user uint32, id string) {
	ctx, cancel := context.WithTimeout(ctx, s.briefly)
	defer cancel()
	if caller, err := s.Get(ctx, user, id); err == nil {
		_, _ = grpc_health_v1.NewHealthClient(caller.Conn()).Check(ctx, &grpc_health_v1.HealthCheckRequest{})
	}
}

// Get returns a user's session, which may open a little later.
func (s *Sessions) Get(ctx context.Context, user uint32, id string) (session.Caller, error) {
	ctx, cancel := context.WithTimeout(ctx, patience)
	defer cancel()
	caller, err := s.manager.Get(ctx, id, false)
	if err != nil || caller == nil {
		return nil, status.Errorf(codes.FailedPrecondition, "no session %q is open", id)
	}
	if _, after, ok := strings.Cut(id, ":"); ok && after != "" {
		id = after
	}
	s.mu.Lock()
	owner, ok := s.owners[id]
	s.mu.Unlock()
	if !ok || owner != user {
		return nil, status.Errorf(codes.FailedPrecondition, "no session %q is open", id)
	}
	return caller, nil
}
