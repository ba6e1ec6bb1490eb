package pathd

import (
	"errors"
	"fmt"
)

// Acknowledge says how many servers have to acknowledge a command.
type Acknowledge int

// All of the servers, which is the zero value; one of them; more than half of them; or all that are not
// away, and one at least. A server is away where the last try of it failed, until one succeeds.
const (
	All Acknowledge = iota
	One
	Majority
	Present
)

func (a Acknowledge) needed(servers int) int {
	switch a {
	case One, Present:
		return 1
	case Majority:
		return servers/2 + 1
	}
	return servers
}

var (
	// ErrNoServers is the error of an empty list of servers.
	ErrNoServers = errors.New("pathd: no servers")
	// ErrWaiting is the error of a server that has not replied yet. It gets the command in any case.
	ErrWaiting = errors.New("pathd: the command waits")
	// ErrDropped is the error of a server whose queue had no room for the command.
	ErrDropped = errors.New("pathd: the command was dropped")
	// ErrQueueFull is the error of a command that was sent to no server, as a queue has no room.
	ErrQueueFull = errors.New("pathd: the queue of a server is full")
)

// Result is what a server has replied to a command: an acknowledgement where Err is nil.
type Result struct {
	Ack Ack
	Err error
}

// NotAcknowledged is the error of a command that too few servers have acknowledged. It wraps the error
// of the context that ended before, ErrClosed, or else the first refusal, as Full, or an ErrDropped.
type NotAcknowledged struct {
	Results []Result // one for each server
	cause   error
}

// Error says how many servers have acknowledged the command, and what the others replied.
func (e *NotAcknowledged) Error() string {
	text := fmt.Sprintf("pathd: %d of %d servers acknowledged", acknowledged(e.Results), len(e.Results))
	for _, it := range e.Results {
		if it.Err != nil {
			text += "; " + it.Err.Error()
		}
	}
	return text
}

// Unwrap answers what it wraps.
func (e *NotAcknowledged) Unwrap() error {
	return e.cause
}

func acknowledged(results []Result) (count int) {
	for _, it := range results {
		if it.Err == nil {
			count++
		}
	}
	return count
}

// firstAck answers the acknowledgement of the first server that has one.
func firstAck(results []Result) Ack {
	for _, it := range results {
		if it.Err == nil {
			return it.Ack
		}
	}
	return Ack{}
}

// refusalAmong answers the first error of a server that does not take a command.
func refusalAmong(results []Result) error {
	for _, it := range results {
		if it.Err != nil && it.Err != ErrWaiting {
			return it.Err
		}
	}
	return nil
}

// delivery is a command that goes to several servers.
type delivery struct {
	kind    byte
	body    []byte
	results []Result // ErrWaiting where the server's queue has it
}

func newDelivery(kind byte, body []byte, servers int) *delivery {
	d := &delivery{kind, body, make([]Result, servers)}
	for number := range d.results {
		d.results[number].Err = ErrWaiting
	}
	return d
}

// size answers how many bytes its frame has.
func (d *delivery) size() int {
	return 5 + len(d.body)
}
