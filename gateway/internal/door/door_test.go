package door

import (
	"bytes"
	"errors"
	"io"
	"math/rand"
	"net"
	"testing"
	"testing/iotest"
	"time"

	"golang.org/x/net/http2"
	"golang.org/x/net/http2/hpack"
)

// request answers what a client sends: its preface, the frames of a request, and one of another kind.
func request(contentType string, isSplit bool) []byte {
	out := bytes.NewBufferString(http2.ClientPreface)
	frames := http2.NewFramer(out, nil)
	frames.WriteSettings(http2.Setting{ID: http2.SettingInitialWindowSize, Val: 1 << 20})
	frames.WriteWindowUpdate(0, 1<<20)
	frames.WriteSettingsAck()
	var block bytes.Buffer
	encoder := hpack.NewEncoder(&block)
	for _, it := range [][2]string{{":method", "POST"}, {":scheme", "http"}, {":path", "/a/b"}, {"content-type", contentType}} {
		encoder.WriteField(hpack.HeaderField{Name: it[0], Value: it[1]})
	}
	half := block.Len()
	if isSplit {
		half /= 2
	}
	frames.WriteHeaders(http2.HeadersFrameParam{StreamID: 1, BlockFragment: block.Bytes()[:half], EndHeaders: !isSplit})
	if isSplit {
		frames.WriteContinuation(1, true, block.Bytes()[half:])
	}
	frames.WriteData(1, false, make([]byte, 5000))
	frames.WriteData(1, true, nil)
	frames.WritePing(false, [8]byte{1})
	return out.Bytes()
}

// scripted is a connection whose reader has what a peer sends.
type scripted struct {
	net.Conn
	io.Reader
	written bytes.Buffer
}

func (c *scripted) Read(p []byte) (int, error)       { return c.Reader.Read(p) }
func (c *scripted) Write(p []byte) (int, error)      { return c.written.Write(p) }
func (c *scripted) SetDeadline(time.Time) error      { return nil }
func (c *scripted) SetReadDeadline(time.Time) error  { return nil }
func (c *scripted) SetWriteDeadline(time.Time) error { return nil }
func (c *scripted) Close() error                     { return nil }
func (c *scripted) RemoteAddr() net.Addr             { return &net.TCPAddr{IP: net.IPv4(127, 0, 0, 1)} }

// nowhere is a listener that nobody can reach.
type nowhere struct{ net.Listener }

func (nowhere) Addr() net.Addr { return new(net.TCPAddr) }

// connOf answers a connection through a door.
func connOf(reader io.Reader) (*Conn, *scripted) {
	inner := &scripted{Reader: reader}
	options := Options{Streams: 100, Connections: 1, OwedByOne: 1 << 20, OwedByAll: 1 << 20}
	return New(nowhere{}, options, nil).newConn(inner), inner
}

func TestWhatAConnectionSpeaks(t *testing.T) {
	readers := map[string]func(io.Reader) io.Reader{
		"whole":  func(r io.Reader) io.Reader { return r },
		"bytes":  iotest.OneByteReader,
		"halves": iotest.HalfReader,
	}
	for contentType, wanted := range map[string]Kind{"application/grpc": GRPC, "application/grpc+proto": GRPC, "application/proto": HTTP2} {
		for _, isSplit := range []bool{false, true} {
			sent := request(contentType, isSplit)
			for name, of := range readers {
				conn, inner := connOf(of(bytes.NewReader(sent)))
				kind, err := conn.sniff()
				if err != nil || kind != wanted {
					t.Fatal(name, kind, err)
				}
				if got, err := io.ReadAll(conn); err != nil || !bytes.Equal(got, sent) {
					t.Errorf("%s: %d bytes, not %d: %v", name, len(got), len(sent), err)
				}
				frame, err := http2.NewFramer(nil, &inner.written).ReadFrame()
				settings, isSettings := frame.(*http2.SettingsFrame)
				if err != nil || !isSettings || settings.NumSettings() != 2 {
					t.Error(name, frame, err)
				}
			}
		}
	}
}

// TestConnectionsThatMayHaveBoth has a first request of gRPC that is for reflection, or of a client of Connect.
func TestConnectionsThatMayHaveBoth(t *testing.T) {
	const grpc = "application/grpc+proto"
	for number, c := range []struct {
		path, contentType, agent string
		wanted                   Kind
	}{
		{"/a/b", grpc, "grpc-go/1.61.0", GRPC},
		{"/a/b", grpc, "", GRPC},
		{"/a/b", grpc, "grpc-go-connect/1.11.1 (go1.20.6)", HTTP2},
		{"/grpc.reflection.v1.ServerReflection/ServerReflectionInfo", grpc, "grpcurl/v1.9.1 grpc-go/1.61.0", HTTP2},
		{"/grpc.reflection.v1alpha.ServerReflection/ServerReflectionInfo", grpc, "", HTTP2},
		{"/a/b", "application/proto", "grpc-go/1.61.0", HTTP2},
	} {
		var its http2.MetaHeadersFrame
		for _, field := range [][2]string{{":method", "POST"}, {":path", c.path}, {"user-agent", c.agent}, {"content-type", c.contentType}} {
			its.Fields = append(its.Fields, hpack.HeaderField{Name: field[0], Value: field[1]})
		}
		if got := kindOf(&its); got != c.wanted {
			t.Errorf("case %d: %d", number, got)
		}
	}
}

func TestHTTP1(t *testing.T) {
	for _, text := range []string{"POST / HTTP/1.1\r\n\r\n", "PRI * HTTP/1.1\r\n\r\n", "G"} {
		conn, _ := connOf(bytes.NewReader([]byte(text)))
		kind, err := conn.sniff()
		if err != nil || kind != HTTP1 {
			t.Fatal(kind, err)
		}
		if got, _ := io.ReadAll(conn); string(got) != text {
			t.Error(string(got))
		}
	}
}

func TestTheServersSettingsAreCut(t *testing.T) {
	var settings bytes.Buffer
	http2.NewFramer(&settings, nil).WriteSettings(http2.Setting{ID: http2.SettingMaxFrameSize, Val: 1 << 14})
	for size := 1; size < 40; size++ {
		conn, inner := connOf(bytes.NewReader(request("application/grpc", false)))
		if _, err := conn.sniff(); err != nil {
			t.Fatal(err)
		}
		inner.written.Reset()
		for left := append(settings.Bytes(), "the rest"...); len(left) > 0; {
			n := size
			if n > len(left) {
				n = len(left)
			}
			if wrote, err := conn.Write(left[:n]); wrote != n || err != nil {
				t.Fatal(wrote, err)
			}
			left = left[n:]
		}
		if got := inner.written.String(); got != "the rest" {
			t.Errorf("%d: %q", size, got)
		}
	}
}

func TestNothingIsSentWithinAFrame(t *testing.T) {
	var settings, ping bytes.Buffer
	http2.NewFramer(&settings, nil).WriteSettings()
	http2.NewFramer(&ping, nil).WritePing(true, [8]byte{1})
	for size := 0; size <= ping.Len(); size++ {
		conn, inner := connOf(bytes.NewReader(request("application/grpc", false)))
		if _, err := conn.sniff(); err != nil {
			t.Fatal(err)
		}
		conn.Write(append(settings.Bytes(), ping.Bytes()...))
		conn.Write(ping.Bytes()[:size])
		before := inner.written.Len()
		conn.goAway(&Flood{"a test"})
		isWhole, isSent := size == 0 || size == ping.Len(), inner.written.Len() > before
		if isWhole != isSent {
			t.Errorf("after %d bytes: %v", size, isSent)
		}
	}
}

func TestWhatIsOwed(t *testing.T) {
	conn, _ := connOf(bytes.NewReader(nil))
	conn.Owe(100)
	conn.Write(make([]byte, 40))
	if conn.Owed() != 60 || conn.door.owed.Taken() != 60 {
		t.Error(conn.Owed(), conn.door.owed.Taken())
	}
	if conn.isStuck(time.Now().Add(-time.Minute)) || !conn.isStuck(time.Now().Add(time.Minute)) {
		t.Error("stuck")
	}
	conn.Write(make([]byte, 100))
	if conn.Owed() != 0 || conn.isStuck(time.Now().Add(time.Minute)) {
		t.Error(conn.Owed())
	}
}

func TestNothingIsOwedOnceClosed(t *testing.T) {
	conn, _ := connOf(bytes.NewReader(nil))
	conn.Owe(100)
	conn.Close()
	conn.Owe(100)
	if conn.Owed() != 0 || conn.door.owed.Taken() != 0 {
		t.Error(conn.Owed(), conn.door.owed.Taken())
	}
}

func TestFloods(t *testing.T) {
	write := map[string]func(*http2.Framer, int){
		"reset":    func(f *http2.Framer, i int) { f.WriteRSTStream(1, http2.ErrCodeCancel) },
		"ping":     func(f *http2.Framer, i int) { f.WritePing(false, [8]byte{}) },
		"settings": func(f *http2.Framer, i int) { f.WriteSettings() },
		"priority": func(f *http2.Framer, i int) { f.WritePriority(1, http2.PriorityParam{StreamDep: 3}) },
		"empty":    func(f *http2.Framer, i int) { f.WriteData(1, false, nil) },
		"small":    func(f *http2.Framer, i int) { f.WriteData(1, false, make([]byte, smallData-1)) },
		"updates":  func(f *http2.Framer, i int) { f.WriteWindowUpdate(0, 1) },
		"continued": func(f *http2.Framer, i int) {
			f.AllowIllegalWrites = true
			f.WriteContinuation(1, false, []byte{0})
		},
	}
	for name, one := range write {
		out := bytes.NewBuffer(request("application/grpc", false))
		frames := http2.NewFramer(out, nil)
		for i := 0; i < 3000; i++ {
			one(frames, i)
		}
		conn, inner := connOf(out)
		if _, err := conn.sniff(); err != nil {
			t.Fatal(name, err)
		}
		_, err := io.ReadAll(conn)
		var flood *Flood
		if !errors.As(err, &flood) {
			t.Error(name, err)
		}
		if !bytes.Contains(inner.written.Bytes(), []byte{0, 0, 0, byte(http2.ErrCodeEnhanceYourCalm)}) {
			t.Error(name, "is not told")
		}
	}
}

// TestSmallFramesOfABusyPeer has a peer that sends small frames for each of its requests, and one that
// gives room for what it is sent.
func TestSmallFramesOfABusyPeer(t *testing.T) {
	out := new(bytes.Buffer)
	frames := http2.NewFramer(out, nil)
	for i := uint32(0); i < 5000; i++ {
		frames.WriteHeaders(http2.HeadersFrameParam{StreamID: 2*i + 1, BlockFragment: []byte{0x82}, EndHeaders: true})
		for range "abcd" {
			frames.WriteData(2*i+1, false, []byte{0})
			frames.WriteWindowUpdate(0, 1)
		}
		frames.WriteData(2*i+1, true, nil)
	}
	g := newGuard(100)
	g.preface = 0
	if err := g.look(out.Bytes(), time.Now, new(bytes.Buffer)); err != nil {
		t.Error(err)
	}
	out.Reset()
	frames.WriteWindowUpdate(0, 1<<14)
	for i := 0; i < 5000; i++ {
		g.wrote(1 << 14)
		if err := g.look(out.Bytes(), time.Now, new(bytes.Buffer)); err != nil {
			t.Fatal(i, err)
		}
	}
}

// handOnAsSent has no frame handed on in another form.
func (c *Conn) handOnAsSent() {
	if c.guard != nil {
		c.guard.isSplitting = false
	}
}

// TestHeadersThatEndTheirStream has them handed on to grpc-go as HEADERS and an empty DATA, whatever the
// pieces in which they come.
func TestHeadersThatEndTheirStream(t *testing.T) {
	write := func(isSplit, endsByHeaders bool) []byte {
		out := bytes.NewBuffer(request("application/grpc", false))
		frames := http2.NewFramer(out, nil)
		block := []byte{0x82, 0x86}
		first := http2.HeadersFrameParam{StreamID: 3, BlockFragment: block[:1], EndStream: endsByHeaders, EndHeaders: !isSplit}
		frames.WriteHeaders(first)
		if isSplit {
			frames.WriteContinuation(3, true, block[1:])
		}
		if !endsByHeaders {
			frames.WriteData(3, true, nil)
		}
		frames.WritePing(false, [8]byte{2})
		return out.Bytes()
	}
	for _, isSplit := range []bool{false, true} {
		for name, of := range map[string]func(io.Reader) io.Reader{
			"whole": func(r io.Reader) io.Reader { return r }, "bytes": iotest.OneByteReader, "halves": iotest.HalfReader,
		} {
			conn, _ := connOf(of(bytes.NewReader(write(isSplit, true))))
			if kind, err := conn.sniff(); err != nil || kind != GRPC {
				t.Fatal(kind, err)
			}
			if got, err := io.ReadAll(iotest.HalfReader(conn)); err != nil || !bytes.Equal(got, write(isSplit, false)) {
				t.Errorf("%s, split %v: % x, %v", name, isSplit, got, err)
			}
		}
	}
}

func TestABucketFills(t *testing.T) {
	b := bucket{most: 2, level: 2}
	now := time.Now()
	for i, wanted := range []bool{true, true, false} {
		if b.take(now) != wanted {
			t.Error(i)
		}
	}
	if !b.take(now.Add(15*time.Millisecond)) || b.take(now.Add(15*time.Millisecond)) {
		t.Error("two frames after as long as for one")
	}
}

func TestNoise(t *testing.T) {
	random := rand.New(rand.NewSource(1))
	for i := 0; i < 5000; i++ {
		sent := request("application/grpc", i%2 == 0)
		for n := random.Intn(4); n >= 0; n-- {
			sent[24+random.Intn(100)] = byte(random.Int())
		}
		conn, _ := connOf(bytes.NewReader(sent))
		if _, err := conn.sniff(); err == nil {
			conn.handOnAsSent()
			if got, err := io.ReadAll(conn); err == nil && !bytes.Equal(got, sent) {
				t.Fatal(i, "other bytes")
			}
		}
	}
}

// FuzzFirstBytes has what is read again be what was sent, whatever that is.
func FuzzFirstBytes(f *testing.F) {
	f.Add(request("application/grpc", false))
	f.Add(request("application/proto", true))
	f.Add([]byte("POST / HTTP/1.1\r\n\r\n"))
	f.Fuzz(func(t *testing.T, sent []byte) {
		conn, _ := connOf(bytes.NewReader(sent))
		kind, err := conn.sniff()
		if err != nil {
			return
		}
		conn.handOnAsSent()
		got, err := io.ReadAll(conn)
		if !bytes.HasPrefix(sent, got) || err == nil && len(got) != len(sent) {
			t.Fatalf("%d: %d bytes of %d: %v", kind, len(got), len(sent), err)
		}
	})
}
