package calls

import (
	"bytes"
	"context"
	"io"
	"log"
	"os"
	"strings"
	"testing"

	"pathd"
)

// ending is a pathd that ends the session of each request, or answers it.
type ending struct {
	err   error
	asked int
}

func (e *ending) Ask(context.Context, pathd.Kind, []byte) ([]byte, error) {
	e.asked++
	return []byte{0}, e.err
}

// TestAServerIsAskedAgain has one that does not list be asked once a minute, and the log have a line each
// time that it stops to list.
func TestAServerIsAskedAgain(t *testing.T) {
	var lines bytes.Buffer
	log.SetOutput(&lines)
	defer log.SetOutput(os.Stderr)
	var (
		ended   = &pathd.SessionError{Opened: true, Sent: true, Err: io.EOF}
		refused = pathd.Busy
		away    = &pathd.SessionError{Err: io.EOF}
	)
	server := new(ending)
	its := &lists{pathd: server}
	for number, c := range []struct {
		err          error
		isLater      bool // whether the minute is over
		asked, lines int
		wanted       error
	}{
		{nil, false, 1, 0, nil}, {refused, false, 2, 0, refused}, {away, false, 3, 0, away},
		{ended, false, 4, 1, errNoLists}, {nil, false, 4, 1, errNoLists}, {ended, true, 5, 1, errNoLists},
		{nil, true, 6, 1, nil}, {ended, false, 7, 2, errNoLists},
	} {
		server.err = c.err
		if c.isLater {
			its.rests.Store(its.rests.Load() - int64(listsAgain))
		}
		_, err := its.ask(context.Background(), nil)
		if got := strings.Count(lines.String(), "the server does not list: run it with --lists\n"); err != c.wanted || server.asked != c.asked || got != c.lines {
			t.Errorf("case %d: %v, asked %d times, %d lines", number, err, server.asked, got)
		}
	}
}
