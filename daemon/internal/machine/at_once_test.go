package machine

import (
	"context"
	"testing"

	"google.golang.org/grpc/codes"
	"google.golang.org/grpc/status"
)

func TestAtMostSomeProcessesRunAtOnceAndOthersWait(t *testing.T) {
	p := &Program{}
	p.SetMost(2)
	var leaves []func()
	for range 2 {
		leave, err := p.enter(t.Context())
		if err != nil {
			t.Fatal(err)
		}
		leaves = append(leaves, leave)
	}
	entered := make(chan error)
	go func() {
		_, err := p.enter(t.Context())
		entered <- err
	}()
	ended, cancel := context.WithCancel(t.Context())
	cancel()
	if _, err := p.enter(ended); status.Code(err) != codes.Canceled {
		t.Errorf("a third one: %v", err)
	}
	leaves[0]()
	if err := <-entered; err != nil {
		t.Error(err)
	}
}

func TestAProgramHasNoBoundOfProcessesByItself(t *testing.T) {
	p := &Program{}
	for range 100 {
		if _, err := p.enter(t.Context()); err != nil {
			t.Fatal(err)
		}
	}
}
