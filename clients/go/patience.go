package pathd

import (
	"errors"
	"os"
	"time"
)

// noteBegun notes when a request was begun, and sets a deadline for reads where there is none. The lock is
// held.
func (s *session) noteBegun(asked *call) {
	if s.patience <= 0 || s.broken != nil {
		return
	}
	asked.begun = time.Now()
	if !s.isTimed {
		s.isTimed = true
		s.conn.SetReadDeadline(asked.begun.Add(s.patience))
	}
}

// patient reads from a session's connection until the oldest request has waited too long. The
// deadline of reads is moved once it has passed, and not for each request.
type patient struct{ *session }

// Read reads as the connection does. os.ErrDeadlineExceeded is its error where a request is late.
func (s patient) Read(into []byte) (int, error) {
	for {
		count, err := s.conn.Read(into)
		if err == nil || count > 0 || !errors.Is(err, os.ErrDeadlineExceeded) || s.isLate() {
			return count, err
		}
	}
}

// isLate answers whether replies are waited for no more. Where they are it sets the next deadline.
func (s patient) isLate() bool {
	s.lock.Lock()
	defer s.lock.Unlock()
	now, next := time.Now(), time.Time{}
	switch {
	case s.broken != nil:
		next = s.until
	case len(s.pending) > 0:
		next = s.pending[0].begun.Add(s.patience)
	default:
		s.isTimed = false
	}
	if s.isTimed && !now.Before(next) {
		return true
	}
	s.conn.SetReadDeadline(next)
	return false
}
