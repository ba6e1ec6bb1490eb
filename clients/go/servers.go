package pathd

import (
	"context"
	"errors"
	"fmt"
	"sync"
	"time"

	pb "pathd/segmentspb"
)

// Options of Servers. What is left out has the value in brackets.
type Options struct {
	// How many servers have to acknowledge a command [All].
	Acknowledge Acknowledge
	// The most commands that wait for one server [4096], and the most bytes of their frames [16 MiB].
	Commands, Bytes int
	// Whether the oldest command that waits for a server is dropped where its queue has no room; else
	// a new one is an ErrQueueFull, and is sent to no server.
	Drop bool
	// How long one try of one server may take [30 seconds].
	Timeout time.Duration
	// How connections are made.
	Dialer Dialer
}

func (o Options) filled() Options {
	if o.Commands <= 0 {
		o.Commands = 4096
	}
	if o.Bytes <= 0 {
		o.Bytes = 16 << 20
	}
	if o.Timeout <= 0 {
		o.Timeout = 30 * time.Second
	}
	return o
}

// Servers are several servers that get the same commands. Any number of goroutines may use them.
//
// Each server has a queue, from which it is sent the commands in the order of the calls. A server that
// is away gets them once it is back. README.md says which commands leave the servers with the same
// rows.
type Servers struct {
	options Options
	senders []*sender
	lookups []*link
	counts  struct{ lookups, commands counts }
	end     context.CancelFunc
	running sync.WaitGroup

	lock    sync.Mutex
	changed chan struct{} // closed and made anew at each change
	first   int           // the server that has answered last: the next lookup asks it first
	closed  bool
}

// NewServers answers the servers at these addresses, of which there has to be one: else it is an
// ErrNoServers. Nothing is connected before it is needed.
func NewServers(addresses []string, options Options) (*Servers, error) {
	if len(addresses) == 0 {
		return nil, ErrNoServers
	}
	ctx, end := context.WithCancel(context.Background())
	s := &Servers{options: options.filled(), end: end, changed: make(chan struct{})}
	for number, address := range addresses {
		s.lookups = append(s.lookups, newLink(address, options.Dialer, 0, window, &s.counts.lookups))
		s.senders = append(s.senders, &sender{
			servers: s, number: number, link: newLink(address, options.Dialer, 0, window, &s.counts.commands),
			queue: queue{most: s.options.Commands, mostBytes: s.options.Bytes},
		})
	}
	for _, it := range s.senders {
		s.running.Add(1)
		go func(it *sender) {
			defer s.running.Done()
			it.run(ctx)
		}(it)
	}
	return s, nil
}

// Close ends the sessions, and all calls that are under way. Commands that wait are lost: Drain waits
// for them before.
func (s *Servers) Close() {
	s.end()
	s.lock.Lock()
	s.closed = true
	s.notify()
	s.lock.Unlock()
	s.running.Wait()
	for _, it := range s.lookups {
		it.close()
	}
}

// Register registers segments at each server, and returns once as many servers as it needs have
// acknowledged that. It answers what each server has replied: ErrWaiting where it has not yet. Such a
// server gets the registration in any case, also where too few have replied before the context ended,
// which is a *NotAcknowledged.
func (s *Servers) Register(ctx context.Context, segments *pb.SegmentsRegistrationRequest) ([]Result, error) {
	body, err := registrationBody(segments)
	if err != nil {
		return nil, err
	}
	return s.command(ctx, register, body)
}

// Purge drops the segments that expire at a time or before from each server, as Register registers.
func (s *Servers) Purge(ctx context.Context, at time.Time) ([]Result, error) {
	return s.command(ctx, purge, purgeBody(MomentOf(at)))
}

// Remove drops the segment of a type with an id from each server, as Register registers. A server
// that ends before it has replied may drop it twice.
func (s *Servers) Remove(ctx context.Context, kind pb.SegmentType, id [32]byte) ([]Result, error) {
	return s.command(ctx, remove, removalBody(kind, id))
}

// Lookup asks one server, the one that has answered last, and where that fails the next one, until
// one answers or the context ends. Where the context has no deadline each server is asked once.
func (s *Servers) Lookup(ctx context.Context, source, destination IsdAs) (*pb.SegmentsResponse, error) {
	body, err := lookupBody(source, destination)
	if err != nil {
		return nil, err
	}
	if body, err = s.query(ctx, KindLookup, body); err != nil {
		return nil, err
	}
	return ReadFound(body)
}

// Ask answers the body of the reply to a request, whose own body is sent as it is: of one server, as
// Lookup does, or the acknowledgement of the first in the list of those that have taken a command.
func (s *Servers) Ask(ctx context.Context, kind Kind, body []byte) ([]byte, error) {
	if !kind.isCommand() {
		return s.query(ctx, kind, body)
	}
	results, err := s.command(ctx, byte(kind), body)
	if err != nil {
		return nil, err
	}
	return ackBody(firstAck(results)), nil
}

// query answers the body of the reply to a lookup or a list.
func (s *Servers) query(ctx context.Context, kind Kind, body []byte) ([]byte, error) {
	for {
		reply, err := s.askEach(ctx, kind, body)
		var code Code
		if err == nil {
			return reply, nil
		}
		_, isBounded := ctx.Deadline()
		if !isBounded || errors.As(err, &code) && !isSentAgain(code) {
			return nil, err
		}
		select {
		case <-time.After(firstPause):
		case <-ctx.Done():
			return nil, err
		}
	}
}

// Drain waits until no queue has a command. It answers the error of the context where that ended
// before.
func (s *Servers) Drain(ctx context.Context) error {
	s.lock.Lock()
	defer s.lock.Unlock()
	return s.wait(ctx, func() bool {
		for _, it := range s.senders {
			if len(it.queue.waiting) > 0 {
				return false
			}
		}
		return true
	})
}

// States answers what the queue of each server comes to.
func (s *Servers) States() (states []State) {
	s.lock.Lock()
	defer s.lock.Unlock()
	for _, it := range s.senders {
		state := it.state
		state.Address = it.link.address
		state.Waiting, state.Bytes = len(it.queue.waiting), it.queue.bytes
		states = append(states, state)
	}
	return states
}

// command puts a command into each queue, in one order of all calls, and waits.
func (s *Servers) command(ctx context.Context, kind byte, body []byte) ([]Result, error) {
	if len(body) > MostRequest {
		return nil, ErrTooLarge
	}
	if err := ctx.Err(); err != nil {
		return nil, err
	}
	d := newDelivery(kind, body, len(s.senders))
	s.lock.Lock()
	defer s.lock.Unlock()
	if s.closed {
		return nil, ErrClosed
	}
	if err := s.put(d); err != nil {
		return nil, err
	}
	err := s.wait(ctx, func() bool { return s.closed || s.isDecided(d) })
	results := append([]Result(nil), d.results...)
	switch {
	case s.isEnough(d):
		return results, nil
	case err == nil && s.isDecided(d):
		err = refusalAmong(results)
	case err == nil:
		err = ErrClosed
	}
	return results, &NotAcknowledged{results, err}
}

// isEnough answers whether as many servers as it needs have acknowledged a command. The lock is held.
func (s *Servers) isEnough(d *delivery) bool {
	by := s.options.Acknowledge
	for number, it := range d.results {
		if by == Present && it.Err == ErrWaiting && s.senders[number].state.Err == nil {
			return false
		}
	}
	return acknowledged(d.results) >= by.needed(len(d.results))
}

// isDecided answers whether enough servers have acknowledged a command, or won't: those that are away are
// not waited for by Present, where another one has refused it. The lock is held.
func (s *Servers) isDecided(d *delivery) bool {
	waiting, waitedFor := 0, 0
	for number, it := range d.results {
		if it.Err != ErrWaiting {
			continue
		}
		waiting++
		if s.senders[number].state.Err == nil {
			waitedFor++
		}
	}
	if s.options.Acknowledge == Present {
		return waitedFor == 0 && waiting < len(d.results)
	}
	count, needed := acknowledged(d.results), s.options.Acknowledge.needed(len(d.results))
	return count >= needed || count+waiting < needed
}

func (s *Servers) put(d *delivery) error {
	for _, it := range s.senders {
		if !s.options.Drop && !it.queue.hasRoomFor(d) {
			return fmt.Errorf("%w: %s", ErrQueueFull, it.link.address)
		}
	}
	for _, it := range s.senders {
		it.put(d)
	}
	s.notify()
	return nil
}

// askEach asks the servers one after the other, until one answers the body of a reply. Each has an
// equal part of the time that those before it have left.
func (s *Servers) askEach(ctx context.Context, kind Kind, body []byte) (reply []byte, err error) {
	s.lock.Lock()
	first := s.first
	s.lock.Unlock()
	for tried := range s.lookups {
		number := (first + tried) % len(s.lookups)
		if reply, err = s.askOne(ctx, number, len(s.lookups)-tried, kind, body); err == nil {
			s.lock.Lock()
			s.first = number
			s.lock.Unlock()
			return reply, nil
		}
		var code Code
		if errors.As(err, &code) && !isSentAgain(code) {
			return nil, err
		}
	}
	return nil, err
}

// askOne asks a server that is the first of so many which may still be asked.
func (s *Servers) askOne(ctx context.Context, number, left int, kind Kind, body []byte) ([]byte, error) {
	part := s.options.Timeout
	if deadline, isBounded := ctx.Deadline(); isBounded && time.Until(deadline)/time.Duration(left) < part {
		part = time.Until(deadline) / time.Duration(left)
	}
	ctx, cancel := context.WithTimeout(ctx, part)
	defer cancel()
	session, err := s.lookups[number].session(ctx)
	if err != nil {
		return nil, err
	}
	reply, err := session.ask(ctx, byte(kind), body)
	if errors.Is(err, context.DeadlineExceeded) {
		session.fail(ErrStuck) // the next call connects anew
	}
	return reply, err
}

// wait waits until something holds. The lock is held when it is called and when it returns.
func (s *Servers) wait(ctx context.Context, holds func() bool) error {
	for !holds() {
		if err := ctx.Err(); err != nil {
			return err
		}
		changed := s.changed
		s.lock.Unlock()
		select {
		case <-changed:
		case <-ctx.Done():
		}
		s.lock.Lock()
	}
	return nil
}

// notify lets all that wait look again. The lock is held.
func (s *Servers) notify() {
	close(s.changed)
	s.changed = make(chan struct{})
}
