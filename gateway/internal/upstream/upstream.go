// Package upstream asks a pathd, or several that get the same registrations.
package upstream

import (
	"context"
	"errors"
	"sync/atomic"
	"time"

	"pathd"
)

const (
	dialLimit = 2 * time.Second // to connect to a server
	attempts  = 2               // of a request at one server

	// What may wait for each of several servers: more than is under way at the one that is not away.
	mostWaiting      = 8192
	mostBytesWaiting = 64 << 20
)

// Options of Servers.
type Options struct {
	// One at least.
	Addresses []string
	// How many sessions with a server there are for lookups. For registrations there are so many with the only
	// server, and one with each of several.
	Lookups, Registrations int
	// How many requests may be under way in a session with the only server.
	Window int
	// How long a request may wait for its reply.
	Deadline time.Duration
}

// Servers are one pathd or several. Lists have sessions of their own.
type Servers struct {
	each    []*server
	several *pathd.Servers // what registers at several; nil where there is one
	first   atomic.Int32   // the number of the server that has answered last
}

type server struct {
	address      string
	asked, lists *pathd.Client
}

// New answers servers, to which nothing is connected before it is needed.
func New(options Options) (*Servers, error) {
	s := new(Servers)
	count := len(options.Addresses)
	part := options.Deadline / time.Duration(count)
	dialer := pathd.Dialer{Timeout: dialLimit}
	for _, address := range options.Addresses {
		clientOf := func(lookups int) *pathd.Client {
			return pathd.NewClient(address, pathd.ClientOptions{
				Dialer: dialer, Lookups: lookups, Commands: options.Registrations,
				Window: options.Window, Patience: part, Attempts: attempts,
			})
		}
		s.each = append(s.each, &server{address, clientOf(options.Lookups), clientOf(1)})
	}
	if count == 1 {
		return s, nil
	}
	var err error
	s.several, err = pathd.NewServers(options.Addresses, pathd.Options{
		Acknowledge: pathd.Present, Commands: mostWaiting, Bytes: mostBytesWaiting, Drop: true, Timeout: part, Dialer: dialer,
	})
	return s, err
}

// Ask answers the body of the reply to a request. Lookups and lists go to the server that has answered last,
// or else to the next one that answers. Commands go to all, and have ended once those have acknowledged them
// that are not away: the reply is that of the first of these.
func (s *Servers) Ask(ctx context.Context, kind pathd.Kind, body []byte) ([]byte, error) {
	if s.several == nil {
		return s.each[0].ask(ctx, kind, body)
	}
	if kind != pathd.KindLookup && kind != pathd.KindList {
		return s.several.Ask(ctx, kind, body)
	}
	first := int(s.first.Load())
	var why error
	for tried := range s.each {
		number := (first + tried) % len(s.each)
		reply, err := s.each[number].askInPart(ctx, len(s.each)-tried, kind, body)
		if ctx.Err() != nil {
			return reply, err
		}
		if !mayAskNext(err) {
			s.first.Store(int32(number))
			return reply, err
		}
		if why == nil {
			why = err
		}
	}
	return nil, why
}

// mayAskNext answers whether a server has not answered, or has no room, so that another one may.
func mayAskNext(err error) bool {
	var ended *pathd.SessionError
	var code pathd.Code
	return errors.As(err, &ended) || errors.Is(err, context.DeadlineExceeded) || errors.As(err, &code) && code.IsPassing()
}

func (s *server) ask(ctx context.Context, kind pathd.Kind, body []byte) ([]byte, error) {
	if kind == pathd.KindList {
		return s.lists.Ask(ctx, kind, body)
	}
	return s.asked.Ask(ctx, kind, body)
}

// askInPart asks a server that is the first of so many which may still be asked: it has an equal part of
// the time.
func (s *server) askInPart(ctx context.Context, left int, kind pathd.Kind, body []byte) ([]byte, error) {
	if deadline, isBounded := ctx.Deadline(); isBounded {
		part, cancel := context.WithTimeout(ctx, time.Until(deadline)/time.Duration(left))
		defer cancel()
		ctx = part
	}
	return s.ask(ctx, kind, body)
}

// Server asks one of the servers.
type Server struct{ of *server }

// Each answers each server.
func (s *Servers) Each() (each []Server) {
	for _, it := range s.each {
		each = append(each, Server{it})
	}
	return each
}

// Address answers where the server is.
func (s Server) Address() string { return s.of.address }

// Ask answers the body of the reply to a request.
func (s Server) Ask(ctx context.Context, kind pathd.Kind, body []byte) ([]byte, error) {
	return s.of.ask(ctx, kind, body)
}

// States answers what waits for each of several servers, and how many registrations it lacks.
func (s *Servers) States() []pathd.State {
	if s.several == nil {
		return nil
	}
	return s.several.States()
}

// Numbers answers what the sessions with all servers come to.
func (s *Servers) Numbers() (lookups, registrations, lists pathd.Numbers) {
	for _, it := range s.each {
		asked, commands := it.asked.Numbers()
		listed, _ := it.lists.Numbers()
		lookups, registrations, lists = sum(lookups, asked), sum(registrations, commands), sum(lists, listed)
	}
	if s.several != nil {
		_, registrations = s.several.Numbers()
	}
	return lookups, registrations, lists
}

func sum(a, b pathd.Numbers) pathd.Numbers {
	return pathd.Numbers{
		Open: a.Open + b.Open, UnderWay: a.UnderWay + b.UnderWay,
		Opened: a.Opened + b.Opened, Failed: a.Failed + b.Failed, Ended: a.Ended + b.Ended, Repeated: a.Repeated + b.Repeated,
	}
}

// Close ends the sessions. What waits for a server is lost.
func (s *Servers) Close() {
	if s.several != nil {
		s.several.Close()
	}
	for _, it := range s.each {
		it.asked.Close()
		it.lists.Close()
	}
}
