package sources

import (
	"sync"

	fstypes "github.com/tonistiigi/fsutil/types"
)

// A queue sends requests while packets are received: a client that waits for its data to be taken takes no requests.
type queue struct {
	stream Stream
	mu     sync.Mutex
	ids    []uint32
	last   bool
	wake   chan struct{}
	done   chan struct{}
	stop   chan struct{}
	err    error
}

func newQueue(stream Stream) *queue {
	q := &queue{stream: stream, wake: make(chan struct{}, 1), done: make(chan struct{}), stop: make(chan struct{})}
	go q.run()
	return q
}

func (q *queue) ask(id uint32) { q.add(func() { q.ids = append(q.ids, id) }) }

func (q *queue) finish() { q.add(func() { q.last = true }) }

func (q *queue) add(change func()) {
	q.mu.Lock()
	change()
	q.mu.Unlock()
	select {
	case q.wake <- struct{}{}:
	default:
	}
}

func (q *queue) run() {
	defer close(q.done)
	for {
		select {
		case <-q.wake:
		case <-q.stop:
			return
		}
		q.mu.Lock()
		ids, last := q.ids, q.last
		q.ids = nil
		q.mu.Unlock()
		for _, id := range ids {
			if q.err = q.stream.SendMsg(&fstypes.Packet{Type: fstypes.PACKET_REQ, ID: id}); q.err != nil {
				return
			}
		}
		if last {
			q.err = q.stream.SendMsg(&fstypes.Packet{Type: fstypes.PACKET_FIN})
			return
		}
	}
}

// close ends the queue, and returns the error of a send if the end was waited for.
func (q *queue) close(wait bool) error {
	if !wait {
		close(q.stop)
		return nil
	}
	<-q.done
	return q.err
}
