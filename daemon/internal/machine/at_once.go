package machine

import (
	"context"

	"google.golang.org/grpc/status"
)

// SetMost lets at most some processes of the program work on definitions at once; others wait. By itself a program has no such bound.
func (p *Program) SetMost(atOnce int) { p.atOnce = make(chan struct{}, atOnce) }

// enter waits until one more process may run. The caller has to call the function that it returns.
func (p *Program) enter(ctx context.Context) (leave func(), err error) {
	if p.atOnce == nil {
		return func() {}, nil
	}
	select {
	case p.atOnce <- struct{}{}:
		return func() { <-p.atOnce }, nil
	case <-ctx.Done():
		return nil, status.FromContextError(ctx.Err()).Err()
	}
}
