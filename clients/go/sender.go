package pathd

import (
	"context"
	"errors"
)

// State is what the queue of a server comes to: how many commands wait and the bytes of their
// frames, how many the server has refused for good and how many were dropped, and what went wrong
// with the last try.
type State struct {
	Address          string
	Waiting, Bytes   int
	Refused, Dropped int
	Err              error
}

// sender sends the commands of one server's queue in their order, again and again until each has its
// reply. The lock of the servers guards the queue and the state.
type sender struct {
	servers *Servers
	number  int
	link    *link
	queue   queue
	state   State
}

func (s *sender) put(d *delivery) {
	for _, dropped := range s.queue.put(d) {
		dropped.results[s.number].Err = ErrDropped
		s.state.Dropped++
	}
}

// run sends until the context ends.
func (s *sender) run(ctx context.Context) {
	defer s.link.close()
	var between pauses
	for {
		batch := s.next(ctx)
		if batch == nil {
			return
		}
		results, err := s.send(ctx, batch)
		if err = s.settle(batch, results, err); err == nil {
			between.reset()
		} else if !between.wait(ctx) {
			return
		}
	}
}

// next waits for commands, and answers those that are sent next; none once the context has ended.
func (s *sender) next(ctx context.Context) []*delivery {
	s.servers.lock.Lock()
	defer s.servers.lock.Unlock()
	if s.servers.wait(ctx, func() bool { return len(s.queue.waiting) > 0 }) != nil {
		return nil
	}
	return s.queue.begin(window)
}

// send answers the results of the commands that have replies, which are the first of them, and what
// went wrong with the others.
func (s *sender) send(ctx context.Context, batch []*delivery) (results []Result, err error) {
	ctx, cancel := context.WithTimeout(ctx, s.servers.options.Timeout)
	defer cancel()
	session, err := s.link.session(ctx)
	if err != nil {
		return nil, err
	}
	var calls []*call
	for _, d := range batch {
		asked, fault := session.begin(ctx, d.kind, d.body)
		if fault != nil {
			err = fault
			break
		}
		calls = append(calls, asked)
	}
	for _, asked := range calls {
		var got Result
		body, fault := asked.await(ctx)
		if fault == nil {
			got.Ack, fault = ReadAck(body)
		}
		var ended *SessionError
		var code Code
		if fault != nil && (errors.As(fault, &ended) || !errors.As(fault, &code)) {
			err = fault
			break
		}
		got.Err = fault
		results = append(results, got)
	}
	if err != nil {
		session.fail(err) // the rest is sent again, on a session that has nothing under way
	}
	return results, err
}

// settle notes the results up to the first that is not for good, and answers what went wrong. The
// commands from there on are sent again, so that they are carried out in their order.
func (s *sender) settle(batch []*delivery, results []Result, err error) error {
	s.servers.lock.Lock()
	defer s.servers.lock.Unlock()
	settled := 0
	for _, got := range results {
		if isSentAgain(got.Err) {
			err = got.Err
			break
		}
		batch[settled].results[s.number] = got
		settled++
		if got.Err != nil {
			s.state.Refused++
		}
	}
	s.queue.end(settled)
	s.state.Err = err
	s.link.counts.repeated.Add(uint64(len(batch) - settled))
	s.servers.notify()
	return err
}

// isSentAgain answers whether a command is sent again after a refusal: later, or once the server was
// started again.
func isSentAgain(err error) bool {
	code, isCode := err.(Code)
	return isCode && (code.IsPassing() || code.IsUnsettled() || code == Stopped)
}
