package pathd

import (
	"context"
	"sync/atomic"
	"time"
)

// link has a session with a server, which is opened again once it has ended. Any number of
// goroutines may use it.
type link struct {
	address  string
	dialer   Dialer
	patience time.Duration
	window   int
	counts   *counts

	current atomic.Pointer[session]
	tried   atomic.Int64  // when openSoon was called last to any effect, in nanoseconds
	turn    chan struct{} // has one element, which a goroutine takes while it opens a session
	failed  time.Time     // when a session could not be opened last, and why; with the turn
	err     error
	life    context.Context // ends with close
	end     context.CancelFunc
}

func newLink(address string, dialer Dialer, patience time.Duration, window int, counts *counts) *link {
	l := &link{address: address, dialer: dialer, patience: patience, window: window, counts: counts}
	l.turn = make(chan struct{}, 1)
	l.life, l.end = context.WithCancel(context.Background())
	l.turn <- struct{}{}
	return l
}

// open answers the session that is open; nil where none is.
func (l *link) open() *session {
	if s := l.current.Load(); s != nil && !s.hasEnded() {
		return s
	}
	return nil
}

// session answers the open session, or a new one. Goroutines that wait for one which can't be opened
// have the error of one attempt, as those that come shortly after it: connections are not tried in a
// loop.
func (l *link) session(ctx context.Context) (*session, error) {
	if s := l.open(); s != nil {
		return s, nil
	}
	asked := time.Now()
	select {
	case <-l.turn:
	case <-ctx.Done():
		return nil, ctx.Err()
	}
	defer func() { l.turn <- struct{}{} }()
	if l.life.Err() != nil {
		return nil, ErrClosed
	}
	if s := l.open(); s != nil {
		return s, nil
	}
	if l.failed.After(asked) || time.Since(l.failed) < shortestPause {
		return nil, l.err
	}
	conn, err := l.dialer.DialContext(ctx, l.address)
	if err != nil {
		return nil, l.fail(ctx, err)
	}
	l.counts.opened.Add(1)
	s := newSession(conn, l)
	l.current.Store(s)
	return s, nil
}

// openSoon has a session opened meanwhile, once in a pause at most: a server may have no room for it.
func (l *link) openSoon() {
	now, before := time.Now().UnixNano(), l.tried.Load()
	if now-before >= int64(longestPause) && l.tried.CompareAndSwap(before, now) {
		go l.session(l.life)
	}
}

// fail answers the error of an attempt, with the turn. An attempt that ended with its own context says
// nothing to others.
func (l *link) fail(ctx context.Context, err error) error {
	if ctx.Err() != nil {
		return ctx.Err()
	}
	l.counts.failed.Add(1)
	l.failed, l.err = time.Now(), &SessionError{Address: l.address, Err: err}
	return l.err
}

// close ends the session, for good.
func (l *link) close() {
	l.end()
	<-l.turn
	if s := l.current.Load(); s != nil {
		s.fail(ErrClosed)
	}
	l.turn <- struct{}{}
}
