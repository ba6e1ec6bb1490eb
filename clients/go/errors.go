package pathd

import (
	"errors"
	"fmt"
)

var (
	// ErrClosed is the error of calls after Close, and of those that it ended.
	ErrClosed = errors.New("pathd: the client is closed")
	// ErrTooLarge is the error of a request that no frame has room for. Nothing was sent.
	ErrTooLarge = errors.New("pathd: the request is too large")
	// ErrReply is the error of all calls of a session once something came that is no reply, and of a lookup
	// or a list whose reply can't be read.
	ErrReply = errors.New("not a reply")
	// ErrStuck is the error of all calls of a session whose oldest request has waited too long.
	ErrStuck = errors.New("no reply in time")
)

// SessionError is the error of a call without a reply: no session could be opened, or it ended. It
// wraps what went wrong: NoSession where the server has no room for the session, ErrReply, ErrStuck,
// io.EOF, or an error of the network.
type SessionError struct {
	Address string
	// Opened says whether there was a session.
	Opened bool
	// Sent says whether the request was sent at least in part: it may have been carried out.
	Sent bool
	Err  error
}

// Error names the server's address and says what went wrong.
func (e *SessionError) Error() string {
	what := "the session ended"
	if !e.Opened {
		what = "no session"
	}
	return fmt.Sprintf("pathd: %s: %s: %v", e.Address, what, e.Err)
}

// Unwrap answers what went wrong.
func (e *SessionError) Unwrap() error {
	return e.Err
}
