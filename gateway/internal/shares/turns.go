package shares

import (
	"context"
	"sync"
)

// Turns lets so many through at one time, and so many of one peer. The others wait: the next turn is that
// of the peer with the fewest, and of those the one that has waited for the longest time.
type Turns struct {
	all, ofPeer int

	mu      sync.Mutex
	count   int          // that have a turn
	having  map[Peer]int // of each peer
	waiting map[Peer][]*waiter
	came    uint64 // waiters
}

// waiter waits for its turn, or has it.
type waiter struct {
	peers   []Peer
	number  uint64 // in the order in which they came
	hasTurn chan struct{}
}

// NewTurns answers turns for so many at one time.
func NewTurns(all, ofPeer int) *Turns {
	return &Turns{all: all, ofPeer: ofPeer, having: map[Peer]int{}, waiting: map[Peer][]*waiter{}}
}

// Enter waits until it is the turn of one that belongs to these peers, or until the context ends. end is
// called once the turn is over.
func (t *Turns) Enter(ctx context.Context, peers []Peer) (end func(), err error) {
	w := &waiter{peers: peers, hasTurn: make(chan struct{})}
	t.mu.Lock()
	t.came++
	w.number = t.came
	t.waiting[w.line()] = append(t.waiting[w.line()], w)
	t.goOn()
	t.mu.Unlock()
	select {
	case <-w.hasTurn:
		return func() { t.end(w) }, nil
	case <-ctx.Done():
		t.end(w)
		return nil, ctx.Err()
	}
}

// line answers the peer in whose line one waits.
func (w *waiter) line() (last Peer) {
	if len(w.peers) > 0 {
		last = w.peers[len(w.peers)-1]
	}
	return last
}

// end ends a turn, or the waiting for it.
func (t *Turns) end(w *waiter) {
	t.mu.Lock()
	defer t.mu.Unlock()
	select {
	case <-w.hasTurn:
		t.note(w, -1)
		t.goOn()
	default:
		t.remove(w)
	}
}

// note notes that one more, or one less, has a turn.
func (t *Turns) note(w *waiter, more int) {
	t.count += more
	for _, peer := range w.peers {
		if t.having[peer] += more; t.having[peer] == 0 {
			delete(t.having, peer)
		}
	}
}

// remove takes one that waits off its line.
func (t *Turns) remove(w *waiter) {
	line := t.waiting[w.line()]
	for at, one := range line {
		if one == w {
			line = append(line[:at], line[at+1:]...)
			break
		}
	}
	if t.waiting[w.line()] = line; len(line) == 0 {
		delete(t.waiting, w.line())
	}
}

// goOn gives a turn to whoever may have one.
func (t *Turns) goOn() {
	for t.count < t.all {
		w := t.next()
		if w == nil {
			return
		}
		t.remove(w)
		t.note(w, 1)
		close(w.hasTurn)
	}
}

// next answers who is to have the next turn; nil where nobody may.
func (t *Turns) next() (found *waiter) {
	fewest := t.ofPeer
	for _, line := range t.waiting {
		w, most := line[0], 0
		for _, peer := range w.peers {
			if t.having[peer] > most {
				most = t.having[peer]
			}
		}
		if most < fewest || found != nil && most == fewest && w.number < found.number {
			found, fewest = w, most
		}
	}
	return found
}
