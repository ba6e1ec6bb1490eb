package pathd

import (
	"bufio"
	"context"
	"encoding/binary"
	"encoding/csv"
	"errors"
	"io"
	"net"
	"os"
	"strconv"
	"sync"
	"testing"
	"time"

	pb "pathd/segmentspb"
)

const limit = 60 * time.Second

// server is a pathd that a test plays: it reads requests, and writes frames as the test says.
type server struct {
	t      *testing.T
	conn   net.Conn
	stream *bufio.Reader
}

// session answers the session for commands.
func (c *Client) session() *session {
	return c.commands.links[0].current.Load()
}

// open answers a client that has one session for all requests, and the server's end of it.
func open(t *testing.T) (*Client, *server, context.Context) {
	listener, err := net.Listen("tcp", "127.0.0.1:0")
	if err != nil {
		t.Fatal(err)
	}
	defer listener.Close()
	ctx, cancel := context.WithTimeout(context.Background(), limit)
	client := NewClient(listener.Addr().String(), ClientOptions{Attempts: 1})
	client.lookups = client.commands
	if _, _, err := client.commands.pick(ctx); err != nil {
		t.Fatal(err)
	}
	conn, err := listener.Accept()
	if err != nil {
		t.Fatal(err)
	}
	conn.SetDeadline(time.Now().Add(limit))
	t.Cleanup(func() { client.Close(); conn.Close(); cancel() })
	return client, &server{t, conn, bufio.NewReader(conn)}, ctx
}

// next answers the kind and the body of the next request.
func (s *server) next() (byte, []byte) {
	content, err := readContent(s.stream)
	if err != nil {
		s.t.Error(err)
		return 0, nil
	}
	return content[0], content[1:]
}

// write writes the frame of a reply.
func (s *server) write(content ...byte) {
	frame := append(binary.BigEndian.AppendUint32(nil, uint32(len(content))), content...)
	if _, err := s.conn.Write(frame); err != nil {
		s.t.Error(err)
	}
}

// acknowledge writes the reply of a kind with the numbers place, 1, 2, 3 and 4.
func (s *server) acknowledge(kind byte, place uint64) {
	body := binary.BigEndian.AppendUint64([]byte{replied | kind}, place)
	for count := uint32(1); count <= 4; count++ {
		body = binary.BigEndian.AppendUint32(body, count)
	}
	s.write(body...)
}

func TestEachRequestHasItsBytes(t *testing.T) {
	client, server, ctx := open(t)
	id := [32]byte{0x8a, 31: 0xff}
	cases := []struct {
		ask  func() (any, error)
		kind byte
		body string
	}{
		{func() (any, error) { return client.Purge(ctx, Moment(3_400_043_199).Time()) }, purge, "\x00\x00\x00\x00\xca\xa8\x8a\xbf"},
		{func() (any, error) { return client.Remove(ctx, pb.SegmentType_SEGMENT_TYPE_DOWN, id) }, remove, "\x02" + string(id[:])},
		{func() (any, error) { return client.Register(ctx, &pb.SegmentsRegistrationRequest{}) }, register, ""},
		{func() (any, error) { return client.Lookup(ctx, 1, 2) }, lookup, "\x08\x01\x10\x02"},
	}
	for number, c := range cases {
		done := make(chan error, 1)
		go func() {
			got, err := c.ask()
			if c.kind != lookup && got != any(Ack{uint64(number), 1, 2, 3, 4}) {
				t.Errorf("%v", got)
			}
			done <- err
		}()
		kind, body := server.next()
		if kind != c.kind || string(body) != c.body {
			t.Errorf("kind %d, body %x", kind, body)
		}
		if kind == lookup {
			server.write(replied | kind)
		} else {
			server.acknowledge(kind, uint64(number))
		}
		if err := <-done; err != nil {
			t.Error(err)
		}
	}
}

// TestALookupsReplyIsRead has bodies that are no SegmentsResponse, or have a type that there is not, refused
// by an ErrReply, by one server and by several.
func TestALookupsReplyIsRead(t *testing.T) {
	for body, isGood := range map[string]bool{
		"": true, "\x0a\x04\x08\x01\x12\x00": true, "\x0a\x04\x08\x03\x12\x00": true,
		"\x0a": false, "\xff\xff": false, "\x0a\x02\x12\x00": false, "\x0a\x04\x08\x00\x12\x00": false, "\x0a\x04\x08\x04\x12\x00": false,
	} {
		store := running(t, func([]byte) []byte { return append([]byte{replied | lookup}, body...) })
		client, ctx := clientOf(t, store, ClientOptions{})
		servers, _ := serversOf(t, Options{}, store)
		for _, ask := range []func(context.Context, IsdAs, IsdAs) (*pb.SegmentsResponse, error){client.Lookup, servers.Lookup} {
			if found, err := ask(ctx, 1, 2); (err == nil) != isGood || !isGood && (found != nil || !errors.Is(err, ErrReply)) {
				t.Errorf("%x: %v, %v", body, found, err)
			}
		}
	}
}

func TestWhetherThereMayBeMore(t *testing.T) {
	of := func(counts ...int) *pb.SegmentsResponse {
		found := &pb.SegmentsResponse{Segments: map[int32]*pb.Segments{}}
		for kind, count := range counts {
			found.Segments[int32(kind+1)] = &pb.Segments{Segments: make([]*pb.PathSegment, count)}
		}
		return found
	}
	for _, c := range []struct {
		found *pb.SegmentsResponse
		more  bool
	}{{nil, false}, {of(), false}, {of(63), false}, {of(64), true}, {of(32, 31), false}, {of(32, 0, 32), true}} {
		if MayHaveMore(c.found) != c.more {
			t.Errorf("%v", c.found)
		}
	}
}

func TestManyAreUnderWay(t *testing.T) {
	client, server, ctx := open(t)
	var all sync.WaitGroup
	for number := uint64(0); number < 4*window; number++ {
		all.Add(1)
		go func(moment uint64) {
			defer all.Done()
			if ack, err := client.Purge(ctx, Moment(moment).Time()); err != nil || ack.Place != moment {
				t.Errorf("%d: %v, %v", moment, ack, err)
			}
		}(number)
	}
	for batch := 0; batch < 4; batch++ {
		var moments []uint64
		for len(moments) < window { // none of these has a reply before all of them have come
			_, body := server.next()
			moments = append(moments, binary.BigEndian.Uint64(body))
		}
		for _, moment := range moments {
			server.acknowledge(purge, moment)
		}
	}
	all.Wait()
}

func TestContextsEndCallsAlone(t *testing.T) {
	client, server, ctx := open(t)
	for _, moment := range []Moment{1, 3} {
		cancelled, cancel := context.WithCancel(ctx)
		go func() {
			server.next()
			cancel()
		}()
		if _, err := client.Purge(cancelled, moment.Time()); !errors.Is(err, context.Canceled) {
			t.Error(err)
		}
		// This one is never sent.
		if _, err := client.Purge(cancelled, Moment(2).Time()); !errors.Is(err, context.Canceled) {
			t.Error(err)
		}
	}
	late, cancel := context.WithDeadline(ctx, time.Now())
	defer cancel()
	if _, err := client.Purge(late, Moment(2).Time()); !errors.Is(err, context.DeadlineExceeded) {
		t.Error(err)
	}
	go func() {
		if _, body := server.next(); binary.BigEndian.Uint64(body) != 4 {
			t.Errorf("%x", body)
		}
		for _, place := range []uint64{1, 3, 4} {
			server.acknowledge(purge, place)
		}
	}()
	if ack, err := client.Purge(ctx, Moment(4).Time()); err != nil || ack.Place != 4 {
		t.Errorf("%v, %v", ack, err)
	}
}

func TestAFullWindowWaitsAsLongAsTheContext(t *testing.T) {
	client, server, ctx := open(t)
	short, cancel := context.WithCancel(ctx)
	var all sync.WaitGroup
	for number := 0; number < window+8; number++ {
		all.Add(1)
		go func() {
			defer all.Done()
			if _, err := client.Purge(short, Moment(0).Time()); !errors.Is(err, context.Canceled) {
				t.Error(err)
			}
		}()
	}
	for number := 0; number < window; number++ {
		server.next()
	}
	cancel()
	all.Wait()
	go func() {
		for number := 0; number < window; number++ {
			server.acknowledge(purge, 0)
		}
		server.next()
		server.acknowledge(purge, 9)
	}()
	if ack, err := client.Purge(ctx, Moment(9).Time()); err != nil || ack.Place != 9 {
		t.Errorf("%v, %v", ack, err)
	}
}

func TestRefusals(t *testing.T) {
	client, server, ctx := open(t)
	for code := range texts {
		if code == NoSession {
			continue
		}
		go func(code Code) {
			server.next()
			server.write(refused, byte(code))
		}(code)
		_, err := client.Lookup(ctx, 1, 2)
		var got Code
		if !errors.Is(err, code) || !errors.As(err, &got) || got != code {
			t.Errorf("%#x: %v", byte(code), err)
		}
	}
}

func TestTheCodesAreThoseOfTheProtocol(t *testing.T) {
	file, err := os.Open(os.Getenv("CODES"))
	if err != nil {
		t.Skip("CODES is the path of docs/codes.csv")
	}
	defer file.Close()
	rows, err := csv.NewReader(file).ReadAll()
	if err != nil {
		t.Fatal(err)
	}
	for _, row := range rows[1:] {
		code, err := strconv.ParseUint(row[0], 0, 8)
		if _, isKnown := texts[Code(code)]; err != nil || !isKnown {
			t.Errorf("%s %v", row[0], err)
		}
	}
	if len(rows)-1 != len(texts) {
		t.Errorf("%d of %d codes", len(rows)-1, len(texts))
	}
}

func TestSessionsThatEnd(t *testing.T) {
	cases := map[string]struct {
		act    func(*server)
		wanted error
	}{
		"before a reply":     {func(s *server) { s.next(); s.conn.Close() }, io.EOF},
		"within a frame":     {func(s *server) { s.next(); s.conn.Write([]byte{0, 0, 0, 9, 0x83}); s.conn.Close() }, io.ErrUnexpectedEOF},
		"no room":            {func(s *server) { s.write(refused, byte(NoSession)); s.conn.Close() }, NoSession},
		"another kind":       {func(s *server) { s.next(); s.write(replied | register) }, ErrReply},
		"without a request":  {func(s *server) { s.acknowledge(purge, 0) }, ErrReply},
		"too long a frame":   {func(s *server) { s.next(); s.conn.Write([]byte{0, 0x11, 0, 1}) }, ErrReply},
		"an empty frame":     {func(s *server) { s.next(); s.conn.Write(make([]byte, 4)) }, ErrReply},
		"half a reply, done": {func(s *server) { s.next(); s.write(replied|purge, 0) }, ErrReply},
	}
	for name, c := range cases {
		t.Run(name, func(t *testing.T) {
			client, server, ctx := open(t)
			if name == "no room" || name == "without a request" {
				c.act(server)
				<-client.session().ended
			} else {
				go c.act(server)
			}
			_, err := client.session().ask(ctx, purge, purgeBody(0))
			var ended *SessionError
			if !errors.Is(err, c.wanted) || !errors.As(err, &ended) || ended.Address != client.commands.links[0].address {
				t.Error(err)
			}
		})
	}
}

func TestClosing(t *testing.T) {
	client, server, ctx := open(t)
	go func() {
		server.next()
		client.Close()
	}()
	for number := 0; number < 2; number++ {
		if _, err := client.Purge(ctx, Moment(0).Time()); !errors.Is(err, ErrClosed) {
			t.Error(err)
		}
	}
	client.Close()
}

func TestWhatNoFrameHasRoomFor(t *testing.T) {
	client, _, ctx := open(t)
	large := &pb.PathSegment{SegmentInfo: make([]byte, MostRequest)}
	segments := map[int32]*pb.Segments{1: {Segments: []*pb.PathSegment{large}}}
	if _, err := client.Register(ctx, &pb.SegmentsRegistrationRequest{Segments: segments}); err != ErrTooLarge {
		t.Error(err)
	}
}
