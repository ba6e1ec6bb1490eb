package pathd

import (
	"context"
	"errors"
	"time"

	pb "pathd/segmentspb"
)

// ClientOptions are those of a Client. What is left out has the value in brackets.
type ClientOptions struct {
	// How connections are made.
	Dialer Dialer
	// How many sessions there are at most for lookups and lists, and for commands [1 and 1]. Replies come
	// in the order of the requests, and a command's waits for the device.
	Lookups, Commands int
	// How many requests may be under way in a session [64]. Others wait until there is room.
	Window int
	// How long a request may wait for its reply: then its session is closed, with an ErrStuck for all
	// that are under way in it [0: for ever].
	Patience time.Duration
	// How often a request is tried at most, where it may be tried again [6].
	Attempts int
}

func (o ClientOptions) filled() ClientOptions {
	for _, it := range []struct {
		number *int
		filled int
	}{{&o.Lookups, 1}, {&o.Commands, 1}, {&o.Window, window}, {&o.Attempts, 6}} {
		if *it.number <= 0 {
			*it.number = it.filled
		}
	}
	return o
}

// Client has sessions with a server. Any number of goroutines may use it: their requests are sent
// without waiting for the replies between them. It connects when it has to, and again where a session
// has ended.
//
// A call ends with its context, and the session goes on: the request keeps its place in the session
// until its reply comes, which is dropped. A command that was sent may be taken.
//
// A request is tried again where no session could be opened or the server had no room for it; where
// its session ended, unless it is a removal that may have been carried out; and where it was refused
// by NoMemory or Busy. Between two attempts is a pause, unless the session had been open before. It is
// tried no more often than Attempts, and not where its session was stuck.
type Client struct {
	attempts          int
	lookups, commands *pool
}

// NewClient answers a client of the server at an address, such as 127.0.0.1:30252. Nothing is
// connected before it is needed.
func NewClient(address string, options ClientOptions) *Client {
	options = options.filled()
	sessions := func(count int) *pool {
		return newPool(address, options.Dialer, options.Patience, options.Window, count)
	}
	return &Client{options.Attempts, sessions(options.Lookups), sessions(options.Commands)}
}

// Dial answers a client of the server at an address, with a session for lookups. The context bounds
// this attempt, of which there is one.
func Dial(ctx context.Context, address string) (*Client, error) {
	client := NewClient(address, ClientOptions{})
	if _, _, err := client.lookups.pick(ctx); err != nil {
		return nil, err
	}
	return client, nil
}

// Close ends the sessions, and all calls that are under way by ErrClosed. A command among them may
// still be taken.
func (c *Client) Close() {
	c.lookups.close()
	c.commands.close()
}

// Register registers segments: of one type and the same hops the newest stays. It returns once the
// registration is on the server's device.
func (c *Client) Register(ctx context.Context, segments *pb.SegmentsRegistrationRequest) (Ack, error) {
	body, err := registrationBody(segments)
	if err != nil {
		return Ack{}, err
	}
	return c.command(ctx, KindRegister, body)
}

// Lookup asks for the segments from a source to a destination. A part of a side that is 0 is any. MayHaveMore
// says whether there may be more than were found. A reply that can't be read is an ErrReply.
func (c *Client) Lookup(ctx context.Context, source, destination IsdAs) (*pb.SegmentsResponse, error) {
	body, err := lookupBody(source, destination)
	if err != nil {
		return nil, err
	}
	if body, err = c.Ask(ctx, KindLookup, body); err != nil {
		return nil, err
	}
	return ReadFound(body)
}

// Purge drops the segments that expire at a time or before: with time.Now(), those that have expired.
func (c *Client) Purge(ctx context.Context, at time.Time) (Ack, error) {
	return c.command(ctx, KindPurge, purgeBody(MomentOf(at)))
}

// Remove drops the segment of a type with an id.
func (c *Client) Remove(ctx context.Context, kind pb.SegmentType, id [32]byte) (Ack, error) {
	return c.command(ctx, KindRemove, removalBody(kind, id))
}

func (c *Client) command(ctx context.Context, kind Kind, body []byte) (Ack, error) {
	reply, err := c.Ask(ctx, kind, body)
	if err != nil {
		return Ack{}, err
	}
	return ReadAck(reply)
}

// Ask answers the body of the reply to a request, whose own body is sent as it is.
func (c *Client) Ask(ctx context.Context, kind Kind, body []byte) ([]byte, error) {
	sessions := c.lookups
	if kind.isCommand() {
		sessions = c.commands
	}
	var between pauses
	for attempt := 1; ; attempt++ {
		reply, wasOpen, err := sessions.ask(ctx, byte(kind), body)
		if err == nil || attempt >= c.attempts || !mayRepeat(kind, err) {
			return reply, err
		}
		// A server that was started again has ended all sessions: no pause then.
		var ended *SessionError
		if isEnd := errors.As(err, &ended); !(isEnd && wasOpen) && !between.wait(ctx) {
			return nil, err
		}
		sessions.counts.repeated.Add(1)
	}
}

// mayRepeat answers whether a request may be sent again after an error.
func mayRepeat(kind Kind, err error) bool {
	var ended *SessionError
	if errors.As(err, &ended) {
		isLost := kind == KindRemove && ended.Sent
		return !isLost && !errors.Is(err, ErrStuck) && !errors.Is(err, ErrReply)
	}
	var code Code
	return errors.As(err, &code) && code.IsPassing()
}
