package calls

import (
	"context"
	"errors"
	"io"
	"log"
	"sync/atomic"
	"syscall"
	"time"

	"pathd"
)

// listsAgain is how long a pathd that does not list is not asked for lists.
const listsAgain = time.Minute

// errNoLists is the error of a list that pathd is not asked for, as it does not list.
var errNoLists = errors.New("the server does not list")

// lists asks a pathd for lists. One that runs without --lists ends the session that asks, so that the
// sessions of lists are apart from those of other requests.
type lists struct {
	pathd Asker
	rests atomic.Int64 // until when it is not asked, in Unix nanoseconds
	isOff atomic.Bool  // as the log says
}

// ask answers the body of the reply to a list. Where pathd does not list, the log has a line once.
func (l *lists) ask(ctx context.Context, body []byte) ([]byte, error) {
	if time.Now().UnixNano() < l.rests.Load() {
		return nil, errNoLists
	}
	reply, err := l.pathd.Ask(ctx, pathd.KindList, body)
	switch {
	case err == nil:
		l.isOff.Store(false)
	case endsSessions(err):
		l.rests.Store(time.Now().Add(listsAgain).UnixNano())
		if !l.isOff.Swap(true) {
			log.Print("the server does not list: run it with --lists")
		}
		return nil, errNoLists
	}
	return reply, err
}

// endsSessions answers whether a request has had pathd end its session.
func endsSessions(err error) bool {
	var ended *pathd.SessionError
	return errors.As(err, &ended) && ended.Sent && (errors.Is(err, io.EOF) || errors.Is(err, syscall.ECONNRESET))
}
