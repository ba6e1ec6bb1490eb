// Package calls carries calls out, whatever they came by: it bounds them, asks pathd, and counts.
package calls

import (
	"context"
	"crypto/sha256"
	"sync/atomic"
	"time"

	"google.golang.org/grpc/codes"

	"pathd"
	"pathd/gateway/internal/door"
	"pathd/gateway/internal/numbers"
	"pathd/gateway/internal/roles"
	"pathd/gateway/internal/shares"
)

// Asker asks pathd, as a client does.
type Asker interface {
	// Ask answers the body of the reply to a request. Where the context ends first the request may
	// have been carried out.
	Ask(ctx context.Context, kind pathd.Kind, body []byte) ([]byte, error)
}

// Verifier verifies registrations.
type Verifier interface {
	// Verify answers an error where a SegmentsRegistrationRequest has an entry whose signature is not
	// good, or where the context has ended before it knows.
	Verify(ctx context.Context, registration []byte) error
}

const (
	// lookupsAtOnce is how many lookups ask pathd at one time: what each finds is in memory some three
	// times while pages are added to it.
	lookupsAtOnce = 32
	// patience is how long a call may have an incomplete request before others of its peer need its place.
	patience = time.Second
	// OfSession is how many requests may be under way in a session with pathd: more than one peer may have.
	OfSession = 256
)

// Options of a Desk.
type Options struct {
	// Pathd asks pathd, for lists over sessions of their own.
	Pathd Asker
	// Verifier verifies registrations before pathd gets them. Nil is none.
	Verifier Verifier
	// Roles has who may make which calls, and Journal a line for each registration, removal and refusal. Nil is
	// everybody, and none.
	Roles   *roles.Roles
	Journal *Journal
	// MostSegments is how many segments a lookup's response has at most.
	MostSegments int
	// Registrations is how many sessions with pathd there are for registrations.
	Registrations int
	// Deadline is the longest that a call may take.
	Deadline time.Duration
	// Calls is how many calls may be under way. A peer may have a quarter of them.
	Calls int
}

// Desk is where calls are carried out.
type Desk struct {
	options  Options
	pages    pages
	calls    *shares.Pool
	lookups  *shares.Turns // of lookups that ask pathd
	commands *shares.Turns // of registrations that pathd has
	recent   recent
	whole    atomic.Int64 // calls whose requests are whole
	turned   atomic.Uint64
}

// NewDesk answers a desk without calls.
func NewDesk(options Options) *Desk {
	all, commands := int64(options.Calls), int64(options.Registrations*OfSession)
	return &Desk{
		options: options, pages: pages{lists: lists{pathd: options.Pathd}, most: options.MostSegments},
		calls:    shares.New(shares.Bounds{All: all, OfPeer: shares.Quarter(all), Patience: patience}),
		lookups:  shares.NewTurns(lookupsAtOnce, lookupsAtOnce),
		commands: shares.NewTurns(int(commands), int(shares.Quarter(commands))),
	}
}

// Numbers answers how many calls are under way, and how many of these have a whole request; and how many
// were turned away for want of room.
func (d *Desk) Numbers() (underWay, whole int64, turned uint64) {
	return d.calls.Taken(), d.whole.Load(), d.turned.Load()
}

// Deadline answers the longest that a call may take.
func (d *Desk) Deadline() time.Duration { return d.options.Deadline }

// WritePages writes the numbers of the pages that were added to lookups.
func (d *Desk) WritePages(p *numbers.Page) { d.pages.writeNumbers(p) }

// Segments is SegmentLookupService/Segments: the body of the reply is the response, with pages of a
// list after it where the lookup may be cut.
func (d *Desk) Segments(ctx context.Context, request []byte) (Response, error) {
	end, err := d.lookups.Enter(ctx, door.FromContext(ctx).Peers())
	if err != nil {
		return Response{}, err
	}
	defer end()
	found, err := d.options.Pathd.Ask(ctx, pathd.KindLookup, request)
	if err != nil {
		return Response{}, err
	}
	return d.pages.complete(ctx, request, found), nil
}

// Registration is SegmentRegistrationService/SegmentsRegistration: the response is empty. Where
// registrations are verified, one that was acknowledged within the last second is not sent again.
func (d *Desk) Registration(ctx context.Context, request []byte) (Response, error) {
	if d.options.Verifier == nil {
		return Response{}, d.register(ctx, request)
	}
	its := sha256.Sum256(request)
	if d.recent.has(its, time.Now()) {
		return Response{}, nil
	}
	err := d.options.Verifier.Verify(ctx, request)
	if err == nil {
		err = d.register(ctx, request)
	}
	if err == nil {
		d.recent.add(its, time.Now())
	}
	return Response{}, err
}

func (d *Desk) register(ctx context.Context, request []byte) error {
	_, err := d.command(ctx, pathd.KindRegister, request)
	return err
}

// command has pathd carry a command out, once it is its peer's turn, and answers the acknowledgement.
func (d *Desk) command(ctx context.Context, kind pathd.Kind, body []byte) ([]byte, error) {
	end, err := d.commands.Enter(ctx, door.FromContext(ctx).Peers())
	if err != nil {
		return nil, err
	}
	defer end()
	return d.options.Pathd.Ask(ctx, kind, body)
}

// Call is a call as whoever serves it has it.
type Call struct {
	By   numbers.Protocol
	Conn *door.Conn // nil where it is not known
	// Read answers the request's body.
	Read func(ctx context.Context) ([]byte, error)
	// Stop has Read end. Another goroutine calls it.
	Stop func()
}

// Serve carries a call of a method out, and answers its response or how it has ended.
func (d *Desk) Serve(ctx context.Context, m *Method, call Call) (Response, *Fault) {
	its := &visit{begun: time.Now(), stop: call.Stop}
	response, fault := d.serve(ctx, m, call, its)
	if fault == nil && call.Conn != nil && !call.Conn.Owe(len(response.Body)) {
		fault = errNotTaken
	}
	status := codes.OK
	if fault != nil {
		response, status = Response{}, fault.Status
		if fault.IsForRoom {
			d.turned.Add(1)
		}
	}
	m.Numbers().Count(call.By, status, time.Since(its.begun))
	d.options.Journal.note(m, call.Conn, its.request, fault)
	return response, fault
}

var (
	errCalls    = noRoom("there is no room for the call among those under way, or its peer has its share of them")
	errSlow     = noRoom("other calls need the place of one whose request is not whole")
	errNotTaken = noRoom("the connection, its peer or all peers have not taken their earlier replies")
)

func (d *Desk) serve(ctx context.Context, m *Method, call Call, its *visit) (Response, *Fault) {
	if call.Conn != nil && !call.Conn.Owe(0) {
		return Response{}, errNotTaken
	}
	if of := d.options.Roles; of != nil && m.Action != "" && !of.Allows(call.Conn.Certificate(), m.Action) {
		return Response{}, NewFault(codes.PermissionDenied, "the client's certificate has no role that allows %q", m.Action)
	}
	place := d.calls.Claim(its, call.Conn.Peers()...)
	if !place.Take(1) {
		return Response{}, errCalls
	}
	defer place.GiveAll()
	ctx = door.NewContext(ctx, call.Conn)
	limit := its.begun.Add(d.options.Deadline)
	if soonest, isBounded := ctx.Deadline(); !isBounded || limit.Before(soonest) {
		var cancel context.CancelFunc
		ctx, cancel = context.WithDeadline(ctx, limit)
		defer cancel()
	}
	request, err := call.Read(ctx)
	its.isWhole.Store(true)
	if its.isLost.Load() {
		return Response{}, errSlow
	}
	if ended := ctx.Err(); err != nil && ended != nil {
		err = ended
	}
	if err != nil {
		return Response{}, FaultOf(err)
	}
	if len(request) > pathd.MostRequest {
		return Response{}, NewFault(codes.ResourceExhausted, "a request has more than %d bytes", pathd.MostRequest)
	}
	its.request = request
	response, fault := d.carryOut(ctx, m, call.Conn, request)
	if fault != nil && its.isLost.Load() { // in the moment in which it became whole
		fault = errSlow
	}
	return response, fault
}

// carryOut carries a call out whose request is whole.
func (d *Desk) carryOut(ctx context.Context, m *Method, conn *door.Conn, request []byte) (Response, *Fault) {
	d.whole.Add(1)
	defer d.whole.Add(-1)
	if conn != nil {
		conn.Begin()
		defer conn.End()
	}
	response, err := m.Serve(ctx, request)
	if err != nil {
		return Response{}, FaultOf(err)
	}
	return response, nil
}

// visit is a call that has a place. It may lose it as long as its request is not whole.
type visit struct {
	begun           time.Time
	request         []byte // once it is whole
	isWhole, isLost atomic.Bool
	stop            func()
}

// IdleSince answers when the call began, until its request is whole.
func (v *visit) IdleSince() int64 {
	if v.isWhole.Load() {
		return 0
	}
	return v.begun.UnixNano()
}

// Lose ends the call.
func (v *visit) Lose() {
	v.isLost.Store(true)
	v.stop()
}
