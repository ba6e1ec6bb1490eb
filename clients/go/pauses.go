package pathd

import (
	"context"
	"math/rand"
	"time"
)

// The pauses before a server is tried again: at least and at most so long. The first one is chosen
// from the half below firstPause.
const (
	shortestPause = firstPause / 2
	firstPause    = 100 * time.Millisecond
	longestPause  = 2 * time.Second
)

// pauses are those between attempts. They double, less a random part of at most a half, so that the
// clients of a server that was started again don't all return at one moment.
type pauses struct {
	next time.Duration
}

// reset has the pauses begin again.
func (p *pauses) reset() {
	p.next = 0
}

// wait waits for the next pause. It answers false where the context ends before.
func (p *pauses) wait(ctx context.Context) bool {
	if p.next == 0 {
		p.next = firstPause
	}
	pause := p.next/2 + time.Duration(rand.Int63n(int64(p.next/2)))
	if p.next *= 2; p.next > longestPause {
		p.next = longestPause
	}
	if deadline, isBounded := ctx.Deadline(); isBounded && time.Until(deadline) < pause {
		return false
	}
	timer := time.NewTimer(pause)
	defer timer.Stop()
	select {
	case <-timer.C:
		return true
	case <-ctx.Done():
		return false
	}
}
