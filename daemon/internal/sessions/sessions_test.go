package sessions

import (
	"context"
	"fmt"
	"net"
	"sync/atomic"
	"testing"
	"time"

	"golang.org/x/net/http2"
	"google.golang.org/grpc"
	"google.golang.org/grpc/codes"
	"google.golang.org/grpc/health/grpc_health_v1"
	"google.golang.org/grpc/status"
)

func headers(id string) map[string][]string { return map[string][]string{headerID: {id}} }

func served(ctx context.Context, s *Sessions, user uint32, id string) chan error {
	here, _ := net.Pipe()
	ended := make(chan error, 1)
	go func() { ended <- s.Serve(ctx, user, here, headers(id)) }()
	return ended
}

func TestASessionIsItsUsersAlone(t *testing.T) {
	s, err := New(10)
	if err != nil {
		t.Fatal(err)
	}
	ctx, cancel := context.WithCancel(context.Background())
	ended := served(ctx, s, 1000, "id")
	for _, id := range []string{"id", "prefix:id"} {
		if _, err := s.Get(ctx, 1000, id); err != nil {
			t.Error(id, err)
		}
		if _, err := s.Get(ctx, 1001, id); status.Code(err) != codes.FailedPrecondition {
			t.Error(id, err)
		}
	}
	if err := <-served(ctx, s, 1001, "id"); status.Code(err) != codes.AlreadyExists {
		t.Error(err)
	}
	cancel()
	<-ended
	short, stop := context.WithTimeout(context.Background(), 50*time.Millisecond)
	defer stop()
	if _, err := s.Get(short, 1000, "id"); status.Code(err) != codes.FailedPrecondition {
		t.Error(err)
	}
}

// answering counts the calls of its health.
type answering struct {
	grpc_health_v1.UnimplementedHealthServer
	calls atomic.Int64
}

func (a *answering) Check(context.Context, *grpc_health_v1.HealthCheckRequest) (*grpc_health_v1.HealthCheckResponse, error) {
	a.calls.Add(1)
	return &grpc_health_v1.HealthCheckResponse{Status: grpc_health_v1.HealthCheckResponse_SERVING}, nil
}

func TestASessionThatSettlesHasAnswered(t *testing.T) {
	s, err := New(10)
	if err != nil {
		t.Fatal(err)
	}
	ctx, cancel := context.WithCancel(context.Background())
	defer cancel()
	s.briefly = patience
	here, there := net.Pipe()
	var health answering
	server := grpc.NewServer()
	grpc_health_v1.RegisterHealthServer(server, &health)
	settled := make(chan int64)
	go func() {
		s.Settle(ctx, 1000, "id") // the session is not open yet
		settled <- health.calls.Load()
	}()
	go func() { _ = s.Serve(ctx, 1000, here, headers("id")) }()
	go (&http2.Server{}).ServeConn(there, &http2.ServeConnOpts{Context: ctx, Handler: server})
	if calls := <-settled; calls != 1 {
		t.Error(calls)
	}
	cancel()
	s.Settle(ctx, 1000, "none") // nobody waits for a session of a client that has ended
}

func TestSessionsAreBounded(t *testing.T) {
	s, err := New(3)
	if err != nil {
		t.Fatal(err)
	}
	ctx, cancel := context.WithCancel(context.Background())
	defer cancel()
	for i := 0; i < 3; i++ {
		served(ctx, s, 0, fmt.Sprint(i))
		if _, err := s.Get(ctx, 0, fmt.Sprint(i)); err != nil {
			t.Error(err)
		}
	}
	if err := <-served(ctx, s, 0, "one more"); status.Code(err) != codes.ResourceExhausted {
		t.Error(err)
	}
	for _, ids := range [][]string{nil, {""}, {"a", "b"}} {
		if err := s.Serve(ctx, 0, nil, map[string][]string{headerID: ids}); status.Code(err) != codes.InvalidArgument {
			t.Error(ids, err)
		}
	}
}
