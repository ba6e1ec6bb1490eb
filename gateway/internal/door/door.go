// Package door has the port of the gateway. It bounds connections, looks at the first bytes of each,
// and hands it to whoever serves what it speaks: HTTP/1, HTTP/2, or HTTP/2 whose first request is
// one of gRPC. It watches the frames of HTTP/2, as the servers behind it have known weaknesses.
package door

import (
	"context"
	"crypto/tls"
	"errors"
	"fmt"
	"net"
	"net/netip"
	"sync"
	"sync/atomic"
	"time"

	"pathd/gateway/internal/shares"
)

const (
	acceptPause    = 50 * time.Millisecond // after an error of accept, such as too many open files
	handshakeLimit = 10 * time.Second
	firstLimit     = 10 * time.Second // to send the first bytes
	stuckPause     = time.Second

	// How long one has to be idle before it makes room for others of its peer: a connection without a
	// call, a handshake under way, and one that takes nothing of what it is owed.
	idlePatience      = 5 * time.Second
	handshakePatience = time.Second
	owedPatience      = time.Second
)

// errNoRoom is the error of a connection that is closed as its peer has its share.
var errNoRoom = errors.New("there is no room for the connection")

// Options of a Door.
type Options struct {
	// Connections is how many may be open; PeerConnections how many of one peer, 0 for no bound.
	Connections, PeerConnections int
	// OwedByOne is how many bytes of replies a connection may owe before a further one, and OwedByAll all
	// of them. A peer may owe a quarter of that.
	OwedByOne, OwedByAll int64
	// Streams is how many streams a connection of HTTP/2 may have open.
	Streams uint32
	// Stuck is how long a connection may owe replies to its peer without taking a byte of them.
	Stuck time.Duration
	// TLS answers the configuration for the next connection. Nil is plain text.
	TLS func() *tls.Config
}

// Door shares the connections of a listener.
type Door struct {
	options  Options
	listener net.Listener
	serve    func(*Conn) // of HTTP/2 that is not gRPC's
	grpc     *handover
	http1    *handover
	running  sync.WaitGroup
	quit     chan struct{}

	places     *shares.Pool // of connections
	handshakes *shares.Pool // under way
	owed       *shares.Pool // bytes of replies that no peer has taken yet

	mu   sync.Mutex
	open map[*Conn]struct{}

	counts counts
}

type counts struct {
	refused, faulty, flooded, stuck, idle, slow atomic.Uint64
	kinds                                       [3]atomic.Uint64
}

// Numbers of a door: connections that are open now and bytes that they owe, and how many connections
// were closed since the start, by why. Idle ones and slow handshakes made room for others. Kinds is how
// many connections spoke HTTP/1, HTTP/2 and gRPC.
type Numbers struct {
	Open                                        int
	Owed                                        int64
	Refused, Faulty, Flooded, Stuck, Idle, Slow uint64
	Kinds                                       [3]uint64
}

// New answers a door before a listener. serve gets each connection of HTTP/2 that is not gRPC's, and
// returns once it has ended.
func New(listener net.Listener, options Options, serve func(*Conn)) *Door {
	connections := int64(options.Connections)
	handshakes := shares.Quarter(connections)
	return &Door{
		options:    options,
		listener:   listener,
		serve:      serve,
		grpc:       newHandover(listener.Addr()),
		http1:      newHandover(listener.Addr()),
		quit:       make(chan struct{}),
		places:     shares.New(shares.Bounds{All: connections, OfPeer: int64(options.PeerConnections), Patience: idlePatience}),
		handshakes: shares.New(shares.Bounds{All: handshakes, OfPeer: shares.Quarter(handshakes), Patience: handshakePatience}),
		owed: shares.New(shares.Bounds{All: options.OwedByAll, OfPeer: shares.Quarter(options.OwedByAll),
			OfClaim: options.OwedByOne, Patience: owedPatience, OfLarger: owedPatience}),
		open: map[*Conn]struct{}{},
	}
}

// GRPC answers the listener of connections whose first request is one of gRPC.
func (d *Door) GRPC() net.Listener { return d.grpc }

// HTTP1 answers the listener of connections of HTTP/1.
func (d *Door) HTTP1() net.Listener { return d.http1 }

// Run accepts connections until Close. It then answers nil.
func (d *Door) Run() error {
	go d.watch()
	for {
		conn, err := d.listener.Accept()
		switch {
		case err == nil:
			d.admit(conn)
		case errors.Is(err, net.ErrClosed):
			return nil
		default:
			time.Sleep(acceptPause)
		}
	}
}

// admit has a connection served where there is room for it, and closes it where there is none.
func (d *Door) admit(conn net.Conn) {
	c := d.newConn(conn)
	d.mu.Lock()
	d.open[c] = struct{}{}
	d.running.Add(1)
	d.mu.Unlock()
	if !c.place.Take(1) {
		d.counts.refused.Add(1)
		c.Close()
		d.running.Done()
		return
	}
	go func() {
		defer d.running.Done()
		d.handle(c)
	}()
}

func addressOf(conn net.Conn) netip.Addr {
	it, err := netip.ParseAddrPort(conn.RemoteAddr().String())
	if err != nil {
		return netip.Addr{}
	}
	return it.Addr().Unmap()
}

// handle finds out what a connection speaks, and gives it to whoever serves that.
func (d *Door) handle(c *Conn) {
	err := d.secure(c)
	kind := HTTP1
	if err == nil {
		kind, err = c.sniff()
	}
	if err != nil {
		if err == errNoRoom {
			d.counts.refused.Add(1)
		} else if !c.isClosed.Load() {
			d.counts.faulty.Add(1)
		}
		c.Close()
		return
	}
	d.counts.kinds[kind].Add(1)
	switch kind {
	case HTTP1:
		d.http1.give(c)
	case GRPC:
		d.grpc.give(c)
	default:
		d.serve(c)
		c.Close()
	}
}

// secure shakes hands by TLS, where the door has it. A client's certificate is a peer of its own, beside
// the address.
func (d *Door) secure(c *Conn) error {
	if d.options.TLS == nil {
		return nil
	}
	place := d.handshakes.Claim(&greeting{c, time.Now().UnixNano()}, c.peers...)
	if !place.Take(1) {
		return errNoRoom
	}
	defer place.GiveAll()
	ctx, cancel := context.WithTimeout(context.Background(), handshakeLimit)
	defer cancel()
	secured := tls.Server(c.Conn, d.options.TLS())
	if err := secured.HandshakeContext(ctx); err != nil {
		return fmt.Errorf("TLS: %w", err)
	}
	c.setInner(secured)
	if its := secured.ConnectionState().PeerCertificates; len(its) > 0 {
		return c.identify(its[0])
	}
	return nil
}

// greeting is a handshake under way.
type greeting struct {
	conn  *Conn
	begun int64
}

// IdleSince answers when the handshake began: a client that takes long makes room first.
func (g *greeting) IdleSince() int64 { return g.begun }

// Lose ends the handshake.
func (g *greeting) Lose() {
	g.conn.door.counts.slow.Add(1)
	go g.conn.Close()
}

// forget takes a connection off the list of those that are open.
func (d *Door) forget(c *Conn) {
	d.mu.Lock()
	defer d.mu.Unlock()
	delete(d.open, c)
}

// watch closes connections whose peers take nothing of what they are owed.
func (d *Door) watch() {
	ticks := time.NewTicker(stuckPause)
	defer ticks.Stop()
	for {
		select {
		case now := <-ticks.C:
			for _, c := range d.all() {
				if c.isStuck(now.Add(-d.options.Stuck)) {
					(&debt{c}).Lose()
				}
			}
		case <-d.quit:
			return
		}
	}
}

func (d *Door) all() (found []*Conn) {
	d.mu.Lock()
	defer d.mu.Unlock()
	for c := range d.open {
		found = append(found, c)
	}
	return found
}

// Numbers answers what the door comes to.
func (d *Door) Numbers() Numbers {
	n := Numbers{
		Open:    int(d.places.Taken()),
		Owed:    d.owed.Taken(),
		Refused: d.counts.refused.Load(),
		Faulty:  d.counts.faulty.Load(),
		Flooded: d.counts.flooded.Load(),
		Stuck:   d.counts.stuck.Load(),
		Idle:    d.counts.idle.Load(),
		Slow:    d.counts.slow.Load(),
	}
	for i := range n.Kinds {
		n.Kinds[i] = d.counts.kinds[i].Load()
	}
	return n
}

// Close lets no more connections in, and closes those that have not said what they speak. The others
// go on.
func (d *Door) Close() {
	close(d.quit)
	d.listener.Close()
	for _, c := range d.all() {
		if !c.isKnown.Load() {
			c.Close()
		}
	}
}

// End closes all connections, and waits until none is served here.
func (d *Door) End() {
	d.grpc.Close()
	d.http1.Close()
	for _, c := range d.all() {
		c.Close()
	}
	d.running.Wait()
}

// Wait returns once the connections of HTTP/2 that are not gRPC's have ended, or the context has.
func (d *Door) Wait(ctx context.Context) error {
	done := make(chan struct{})
	go func() {
		d.running.Wait()
		close(done)
	}()
	select {
	case <-done:
		return nil
	case <-ctx.Done():
		return ctx.Err()
	}
}
