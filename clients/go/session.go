package pathd

import (
	"bufio"
	"context"
	"encoding/binary"
	"errors"
	"fmt"
	"io"
	"net"
	"os"
	"runtime"
	"sync"
	"time"
)

const (
	// How many requests may be under way in a session. pathd buffers few replies: it reads on as they
	// are read.
	window = 64
	// How long replies are waited for after requests could not be sent: the server may have said why.
	lastReplies = time.Second
	// The most bytes of requests without a reply that a caller writes itself: the system has room for
	// so many in a new connection, and the write doesn't wait for the server.
	easy = 1 << 15
	// The most bytes of a buffer of requests that is kept.
	mostKept = 1 << 18
)

type result struct {
	body []byte
	err  error
}

// call is a request in a session.
type call struct {
	kind  byte
	size  int       // the bytes of its frame
	begun time.Time // where the session has patience
	sent  bool      // at least in part
	// Has room for the result, so that nobody has to wait for it.
	result chan result
}

// calls has those whose results were taken, to be used again.
var calls = sync.Pool{New: func() any { return &call{result: make(chan result, 1)} }}

// session is a connection whose requests are sent without waiting for the replies between them. Any
// number of goroutines may use it. It is not opened again once it ended.
type session struct {
	conn     net.Conn
	isSystem bool // whether the system has buffers for what is written
	address  string
	patience time.Duration // how long the oldest request may wait for its reply; 0 for ever
	counts   *counts
	room     chan struct{} // has an element for each request under way
	ended    chan struct{}

	lock      sync.Mutex
	pending   []*call   // in order, without a reply
	waiting   int       // the bytes of their frames
	unsent    []byte    // the frames of the last of them
	spare     []byte    // the buffer of the frames before those
	isWriting bool      // whether somebody writes, or nothing can be sent any more
	isTimed   bool      // whether reads have a deadline
	broken    error     // why nothing more can be sent
	until     time.Time // how long replies are waited for then
	err       error     // why the session ended; not changed once ended is closed
}

func newSession(conn net.Conn, l *link) *session {
	_, isSystem := conn.(*net.TCPConn)
	s := &session{
		conn: conn, isSystem: isSystem, address: l.address, patience: l.patience, counts: l.counts,
		room: make(chan struct{}, l.window), ended: make(chan struct{}),
	}
	go s.receive()
	return s
}

// underWay answers how many requests have no reply, or are about to be sent.
func (s *session) underWay() int {
	return len(s.room)
}

func (s *session) hasEnded() bool {
	select {
	case <-s.ended:
		return true
	default:
		return false
	}
}

// ask answers the body of the reply to a request. Where the context ends first the request keeps its
// place until its reply comes, which is dropped: a command may be taken.
func (s *session) ask(ctx context.Context, kind byte, body []byte) ([]byte, error) {
	asked, err := s.begin(ctx, kind, body)
	if err != nil {
		return nil, err
	}
	return asked.await(ctx)
}

// begin has a request sent after those before it, once the session has room for it. Whoever comes
// first while nobody writes does so for all that come meanwhile: many requests are one write.
func (s *session) begin(ctx context.Context, kind byte, body []byte) (*call, error) {
	if len(body) > MostRequest {
		return nil, ErrTooLarge
	}
	if err := ctx.Err(); err != nil {
		return nil, err
	}
	select {
	case s.room <- struct{}{}:
	case <-ctx.Done():
		return nil, ctx.Err()
	case <-s.ended:
		return nil, s.fault(false)
	}
	asked := calls.Get().(*call)
	asked.kind, asked.size, asked.sent = kind, frameHead+len(body), false
	isPut, isWriter := s.put(asked, body)
	if !isPut {
		<-s.room
		return nil, s.fault(false)
	}
	if isWriter && s.underWay() > 1 {
		runtime.Gosched() // others may have requests for the same write
	}
	if isWriter {
		s.write(true)
	}
	return asked, nil
}

// await answers the body of the reply to a request that was begun. It is called once.
func (c *call) await(ctx context.Context) ([]byte, error) {
	select {
	case got := <-c.result:
		calls.Put(c)
		return got.body, got.err
	case <-ctx.Done():
		return nil, ctx.Err()
	}
}

// put puts a request after those before it, unless the session has ended, and answers whether its
// caller has to write.
func (s *session) put(asked *call, body []byte) (isPut, isWriter bool) {
	s.lock.Lock()
	defer s.lock.Unlock()
	if s.err != nil {
		return false, false
	}
	s.unsent = binary.BigEndian.AppendUint32(s.unsent, uint32(1+len(body)))
	s.unsent = append(append(s.unsent, asked.kind), body...)
	s.pending = append(s.pending, asked)
	s.waiting += asked.size
	s.noteBegun(asked)
	isWriter = !s.isWriting
	s.isWriting = true
	return true, isWriter
}

// write writes what there is to write, all at once, until there is nothing more. A caller doesn't wait
// for the server: a goroutine goes on where it would have to.
func (s *session) write(isCaller bool) {
	var frames []byte
	for {
		if frames = s.takeUnsent(frames, isCaller); len(frames) == 0 {
			return
		}
		if _, err := s.conn.Write(frames); err != nil {
			s.breakOff(err)
			return
		}
	}
}

// takeUnsent answers the frames that are to be written, and keeps the buffer of those that were. It
// answers none where there are none, or where a goroutine goes on.
func (s *session) takeUnsent(written []byte, isCaller bool) []byte {
	s.lock.Lock()
	defer s.lock.Unlock()
	if cap(written) > 0 && cap(written) <= mostKept {
		s.spare = written[:0]
	}
	if len(s.unsent) == 0 {
		s.isWriting = false
		return nil
	}
	if isCaller && (!s.isSystem || s.waiting > easy) {
		go s.write(false)
		return nil
	}
	for number := len(s.pending) - 1; number >= 0 && !s.pending[number].sent; number-- {
		s.pending[number].sent = true
	}
	frames := s.unsent
	s.unsent, s.spare = s.spare, nil
	return frames
}

// breakOff has the session end once the replies that have come are read.
func (s *session) breakOff(err error) {
	s.lock.Lock()
	defer s.lock.Unlock()
	s.broken, s.until, s.isTimed = err, time.Now().Add(lastReplies), true
	s.conn.SetReadDeadline(s.until)
}

// receive gives each reply to the request that was sent first of those without one.
func (s *session) receive() {
	stream := bufio.NewReaderSize(patient{s}, 1<<16)
	for {
		content, err := readContent(stream)
		if err == nil {
			err = s.deliver(content)
		}
		if err != nil {
			s.fail(s.reason(err))
			return
		}
	}
}

// reason answers why a session ends whose connection can't be read.
func (s *session) reason(err error) error {
	s.lock.Lock()
	defer s.lock.Unlock()
	switch {
	case !errors.Is(err, os.ErrDeadlineExceeded):
		return err
	case s.broken != nil:
		return s.broken
	}
	return ErrStuck
}

// deliver answers an error where the session has to end.
func (s *session) deliver(content []byte) error {
	isRefusal := content[0] == refused && len(content) == 2
	if isRefusal && Code(content[1]) == NoSession {
		return NoSession
	}
	next, err := s.takeNext(content, isRefusal)
	if err != nil {
		return err
	}
	if isRefusal {
		s.settle(next, result{nil, Code(content[1])})
	} else {
		s.settle(next, result{content[1:], nil})
	}
	return nil
}

// takeNext answers the request to which a frame has to be the reply.
func (s *session) takeNext(content []byte, isRefusal bool) (*call, error) {
	s.lock.Lock()
	defer s.lock.Unlock()
	if len(s.pending) == 0 {
		return nil, fmt.Errorf("%w: nothing was asked", ErrReply)
	}
	next := s.pending[0]
	if !isRefusal && !isReply(next.kind, content) {
		return nil, fmt.Errorf("%w: kind %#02x, %d bytes", ErrReply, content[0], len(content))
	}
	s.pending[0] = nil
	s.pending = s.pending[1:]
	s.waiting -= next.size
	return next, nil
}

// settle gives a request its result, and its room to others.
func (s *session) settle(asked *call, got result) {
	<-s.room
	asked.result <- got
}

// readContent answers the bytes of a frame after its length: there is at least one.
func readContent(stream *bufio.Reader) ([]byte, error) {
	head, err := stream.Peek(lengthSize)
	if err != nil && len(head) == 0 {
		return nil, err
	}
	if err != nil {
		return nil, noEOF(err)
	}
	length := binary.BigEndian.Uint32(head)
	if length == 0 || length > 1+MostReply {
		return nil, fmt.Errorf("%w: a frame of %d bytes", ErrReply, length)
	}
	stream.Discard(lengthSize)
	content := make([]byte, length)
	if _, err := io.ReadFull(stream, content); err != nil {
		return nil, noEOF(err)
	}
	return content, nil
}

// noEOF answers an error that came within a frame.
func noEOF(err error) error {
	if err == io.EOF {
		return io.ErrUnexpectedEOF
	}
	return err
}

// fail ends the session, and all requests that are under way.
func (s *session) fail(err error) {
	if s.end(err) {
		s.conn.Close() // TLS may wait here for some seconds: the lock isn't held
	}
}

// end answers false where the session has ended before.
func (s *session) end(err error) bool {
	s.lock.Lock()
	defer s.lock.Unlock()
	if s.err != nil {
		return false
	}
	s.err = err
	close(s.ended)
	s.counts.ended.Add(1)
	for _, asked := range s.pending {
		s.settle(asked, result{nil, s.fault(asked.sent)})
	}
	s.pending, s.unsent, s.spare = nil, nil, nil
	return true
}

// fault answers the error of a request that has no reply, once the session has ended.
func (s *session) fault(sent bool) error {
	if s.err == ErrClosed {
		return ErrClosed
	}
	return &SessionError{Address: s.address, Opened: true, Sent: sent && s.err != NoSession, Err: s.err}
}
