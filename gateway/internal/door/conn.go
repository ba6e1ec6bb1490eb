package door

import (
	"bytes"
	"context"
	"crypto/x509"
	"io"
	"net"
	"net/http"
	"sync"
	"sync/atomic"
	"time"

	"pathd/gateway/internal/shares"
)

// Conn is a connection that came through a door.
type Conn struct {
	net.Conn
	door *Door

	peers       []shares.Peer     // its address, and the client's certificate where there is one
	certificate *x509.Certificate // the client's, where there is one
	place       *shares.Claim     // among the connections
	owed        *shares.Claim     // bytes of replies that the peer has not taken yet
	took        atomic.Int64      // when it has last taken some, or begun to owe, in Unix nanoseconds

	calls atomic.Int64 // whose requests are whole
	ended atomic.Int64 // when the last call ended, or the connection began, in Unix nanoseconds

	isKnown  atomic.Bool // what it speaks
	isClosed atomic.Bool
	closing  sync.Once
	mu       sync.Mutex // guards Conn while TLS takes its place

	seen   bytes.Buffer // read to find out what it speaks, and to be read again
	guard  *guard       // of HTTP/2
	passed bytes.Buffer // what the guard has let pass, and nobody has read
	skip   skip         // the settings that a server of HTTP/2 writes, which the door has sent

	writing sync.Mutex // held while bytes of HTTP/2 are written
	bound   bound      // where the last written frame ends
}

// newConn answers a connection that has no place yet.
func (d *Door) newConn(conn net.Conn) *Conn {
	c := &Conn{Conn: conn, door: d, peers: []shares.Peer{shares.Address(addressOf(conn))}}
	c.place = d.places.Claim(c, c.peers...)
	c.owed = d.owed.Claim(&debt{c}, c.peers...)
	c.ended.Store(time.Now().UnixNano())
	return c
}

// identify has the connection belong to a client's certificate, too.
func (c *Conn) identify(certificate *x509.Certificate) error {
	peer := shares.Certificate(certificate)
	if !c.place.Join(peer) || !c.owed.Join(peer) {
		return errNoRoom
	}
	c.certificate = certificate
	c.peers = append(c.peers, peer)
	return nil
}

// Peers answers whom the connection belongs to: its address, and the client's certificate where there is
// one. A nil connection belongs to nobody.
func (c *Conn) Peers() []shares.Peer {
	if c == nil {
		return nil
	}
	return c.peers
}

// Certificate answers the client's certificate, or nil.
func (c *Conn) Certificate() *x509.Certificate {
	if c == nil {
		return nil
	}
	return c.certificate
}

// Begin notes that a call has its whole request, and End that such a call has ended. The connection is
// idle where it has none.
func (c *Conn) Begin() { c.calls.Add(1) }

// End is called once for each Begin.
func (c *Conn) End() {
	c.ended.Store(time.Now().UnixNano())
	c.calls.Add(-1)
}

// IdleSince answers since when the connection has no call whose request is whole.
func (c *Conn) IdleSince() int64 {
	if c.calls.Load() > 0 {
		return 0
	}
	return c.ended.Load()
}

// Lose closes the connection, as another one needs its place.
func (c *Conn) Lose() {
	c.door.counts.idle.Add(1)
	go c.Close() // TLS may wait for a peer that reads nothing
}

// debt is what a connection owes.
type debt struct{ conn *Conn }

// IdleSince answers since when the peer has taken nothing of what it is owed.
func (d *debt) IdleSince() int64 { return d.conn.took.Load() }

// Lose closes the connection.
func (d *debt) Lose() {
	d.conn.door.counts.stuck.Add(1)
	go d.conn.Close()
}

func (c *Conn) setInner(inner net.Conn) {
	c.mu.Lock()
	defer c.mu.Unlock()
	c.Conn = inner
}

// Read reads what was read before and then from the connection. It is an error where a peer of
// HTTP/2 sends what the guard does not let pass.
func (c *Conn) Read(p []byte) (int, error) {
	if c.guard == nil {
		return c.readOn(p)
	}
	for c.passed.Len() == 0 {
		n, err := c.readOn(p)
		if fault := c.guard.look(p[:n], time.Now, &c.passed); fault != nil {
			c.door.counts.flooded.Add(1)
			c.goAway(fault)
			return 0, fault
		}
		if err == io.EOF {
			c.guard.handOnHead(&c.passed)
		}
		if err != nil && c.passed.Len() == 0 {
			return 0, err
		}
	}
	return c.passed.Read(p)
}

func (c *Conn) readOn(p []byte) (int, error) {
	if c.seen.Len() > 0 {
		return c.seen.Read(p)
	}
	return c.Conn.Read(p)
}

// Write writes, and counts what the peer has taken.
func (c *Conn) Write(p []byte) (int, error) {
	left := p
	if c.skip.left > 0 {
		left = c.skip.cut(p)
	}
	if len(left) == 0 {
		return len(p), nil
	}
	n, err := c.write(left)
	c.took.Store(time.Now().UnixNano())
	c.owed.Give(int64(n))
	if c.guard != nil {
		c.guard.wrote(n)
	}
	return len(p) - len(left) + n, err
}

// write writes, and notes where a frame of HTTP/2 ends.
func (c *Conn) write(p []byte) (int, error) {
	if c.guard == nil {
		return c.Conn.Write(p)
	}
	c.writing.Lock()
	defer c.writing.Unlock()
	n, err := c.Conn.Write(p)
	c.bound.pass(p[:n])
	return n, err
}

// Owe notes that so many bytes of a reply are about to be written. It answers false, and notes nothing,
// where the connection, its peer or all of them owe too much already.
func (c *Conn) Owe(bytes int) bool {
	if c.owed.Amount() == 0 {
		c.took.Store(time.Now().UnixNano())
	}
	isFree := c.owed.Take(int64(bytes))
	if c.isClosed.Load() { // while the reply was made: nobody takes it
		c.owed.GiveAll()
	}
	return isFree
}

// OweLess notes that so many bytes of what was owed are not written, as the reply was compressed.
func (c *Conn) OweLess(bytes int) {
	if c != nil && bytes > 0 {
		c.owed.Give(int64(bytes))
	}
}

// Owed answers how many bytes of replies the peer has not taken yet.
func (c *Conn) Owed() int64 { return c.owed.Amount() }

// isStuck answers whether the peer has not taken all that it is owed, and no byte since a moment.
func (c *Conn) isStuck(since time.Time) bool {
	return c.took.Load() < since.UnixNano() && c.owed.Amount() > 0
}

// Past is a moment that has been: reads until then end at once.
var Past = time.Unix(1, 0)

// ReadUntil has reads of a request's body end at a moment: by HTTP/2 those of its stream, and by HTTP/1
// those of the connection, which has no other request. Any goroutine may call it.
func (c *Conn) ReadUntil(w http.ResponseWriter, at time.Time) {
	if stream, isHTTP2 := w.(interface{ SetReadDeadline(time.Time) error }); isHTTP2 {
		stream.SetReadDeadline(at)
	} else if c != nil {
		c.SetReadDeadline(at)
	}
}

// Close closes the connection, and makes room for another one.
func (c *Conn) Close() (err error) {
	c.closing.Do(func() {
		c.mu.Lock()
		inner := c.Conn
		c.mu.Unlock()
		c.isClosed.Store(true)
		err = inner.Close()
		c.owed.GiveAll()
		c.place.GiveAll()
		c.door.forget(c)
	})
	return err
}

// address is a peer's address that leads to its connection.
type address struct {
	net.Addr
	conn *Conn
}

// RemoteAddr answers the peer's address. ConnOf finds the connection by it, as gRPC's server tells a
// call nothing else of its connection.
func (c *Conn) RemoteAddr() net.Addr { return &address{c.Conn.RemoteAddr(), c} }

// ConnOf answers the connection whose peer has this address, or nil where it is none of a door.
func ConnOf(peer net.Addr) *Conn {
	if it, isOurs := peer.(*address); isOurs {
		return it.conn
	}
	return nil
}

type contextKey struct{}

// NewContext answers a context by which FromContext finds a connection.
func NewContext(ctx context.Context, conn *Conn) context.Context {
	return context.WithValue(ctx, contextKey{}, conn)
}

// FromContext answers the connection of a context, or nil.
func FromContext(ctx context.Context) *Conn {
	conn, _ := ctx.Value(contextKey{}).(*Conn)
	return conn
}
