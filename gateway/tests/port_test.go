package tests

import (
	"bytes"
	"errors"
	"io"
	"net"
	"net/http"
	"strings"
	"testing"
	"time"

	"golang.org/x/net/http2"
	"golang.org/x/net/http2/hpack"
	health "google.golang.org/grpc/health/grpc_health_v1"
)

// peer is a client of HTTP/2 that writes frames by hand.
type peer struct {
	t *testing.T
	net.Conn
	*http2.Framer
}

// newPeer connects, and sends the preface and empty settings.
func newPeer(t *testing.T, address string) *peer {
	t.Helper()
	return peerOf(t, dialFrom(t, "127.0.0.1", address))
}

// peerOf sends the preface and empty settings over a connection.
func peerOf(t *testing.T, conn net.Conn) *peer {
	io.WriteString(conn, http2.ClientPreface)
	p := &peer{t, conn, http2.NewFramer(conn, conn)}
	p.AllowIllegalWrites, p.AllowIllegalReads = true, true
	p.WriteSettings()
	return p
}

// block answers the headers of a request.
func block(contentType string, more ...string) []byte {
	var out bytes.Buffer
	encoder := hpack.NewEncoder(&out)
	fields := append([]string{":method", "POST", ":scheme", "http", ":path", lookupPath, ":authority", "x",
		"content-type", contentType, "te", "trailers"}, more...)
	for i := 0; i < len(fields); i += 2 {
		encoder.WriteField(hpack.HeaderField{Name: fields[i], Value: fields[i+1]})
	}
	return out.Bytes()
}

// call sends a whole request on a stream.
func (p *peer) call(stream uint32, contentType string) {
	p.WriteHeaders(http2.HeadersFrameParam{StreamID: stream, BlockFragment: block(contentType), EndHeaders: true})
	body := []byte{8, 1}
	if contentType == "application/grpc" {
		body = append([]byte{0, 0, 0, 0, 2}, body...)
	}
	p.WriteData(stream, true, body)
}

// until reads frames until one is wanted, and answers nil where the connection ends before.
func (p *peer) until(wanted func(http2.Frame) bool) http2.Frame {
	for {
		frame, err := p.ReadFrame()
		if err != nil {
			return nil
		}
		if wanted(frame) {
			return frame
		}
	}
}

// isAnswered answers whether a stream has come to its end.
func (p *peer) isAnswered(stream uint32) bool {
	return p.until(func(f http2.Frame) bool {
		return f.Header().StreamID == stream && f.Header().Flags.Has(http2.FlagHeadersEndStream) && f.Header().Type != http2.FrameRSTStream
	}) != nil
}

// ends answers whether the server closes the connection, and how it has said so.
func (p *peer) ends() (isClosed bool, code http2.ErrCode) {
	for {
		frame, err := p.ReadFrame()
		var slow net.Error
		if errors.As(err, &slow) && slow.Timeout() {
			return false, code
		}
		if err != nil {
			return true, code
		}
		if it, isGoAway := frame.(*http2.GoAwayFrame); isGoAway {
			code = it.ErrCode
		}
	}
}

func TestRequestsByHand(t *testing.T) {
	at := gateway(t, fake(t, healthy)).address
	for _, kind := range []string{"application/grpc", "application/proto"} {
		p := newPeer(t, at)
		for stream := uint32(1); stream < 8; stream += 2 {
			p.call(stream, kind)
			if !p.isAnswered(stream) {
				t.Fatal(kind, stream)
			}
			if stream == 1 {
				p.WriteSettingsAck()
			}
		}
	}
}

// TestTheSettingsComeOnce has a client that waits for settings, acknowledges them and goes on: an
// acknowledgement too many would end the connection.
func TestTheSettingsComeOnce(t *testing.T) {
	at := gateway(t, fake(t, healthy)).address
	for _, kind := range []string{"application/grpc", "application/proto"} {
		p := newPeer(t, at)
		count, acks := 0, 0
		p.until(func(f http2.Frame) bool {
			if it, is := f.(*http2.SettingsFrame); is && !it.IsAck() {
				count++
				p.WriteSettingsAck()
			}
			return count == 1
		})
		p.call(1, kind)
		p.until(func(f http2.Frame) bool {
			if it, is := f.(*http2.SettingsFrame); is {
				if it.IsAck() {
					acks++
				} else {
					count++
				}
			}
			return f.Header().StreamID == 1 && f.Header().Flags.Has(http2.FlagHeadersEndStream)
		})
		if count != 1 || acks != 1 {
			t.Errorf("%s: %d settings, %d acknowledgements", kind, count, acks)
		}
	}
}

func TestAQuietConnectionIsOneOfGRPC(t *testing.T) {
	p := newPeer(t, gateway(t, fake(t, healthy)).address)
	time.Sleep(2500 * time.Millisecond)
	p.call(1, "application/grpc")
	if !p.isAnswered(1) {
		t.Error("no answer")
	}
}

// TestMalformedFrames sends what RFC 9113 forbids, before the first request and after one: the server
// closes the connection or resets the stream, and goes on to serve others. Of two faults of values
// grpc-go takes no notice: a frame size below 2^14, and a window beyond 2^31 - 1.
func TestMalformedFrames(t *testing.T) {
	at := gateway(t, fake(t, healthy)).address
	raw := func(bytes ...byte) func(*peer) { return func(p *peer) { p.Write(bytes) } }
	long := strings.Repeat("x", 20_000)
	cases := map[string]func(*peer){
		"a frame that is too long":          raw(0, 0x40, 1, 0, 0, 0, 0, 0, 3),
		"DATA on stream 0":                  func(p *peer) { p.WriteData(0, false, []byte("x")) },
		"DATA on an idle stream":            func(p *peer) { p.WriteData(9, false, []byte("x")) },
		"HEADERS on stream 0":               raw(0, 0, 1, 1, 4, 0, 0, 0, 0, 0x82),
		"HEADERS on an even stream":         func(p *peer) { p.call(2, "application/grpc") },
		"CONTINUATION alone":                func(p *peer) { p.WriteContinuation(1, true, nil) },
		"CONTINUATION of another stream":    func(p *peer) { p.WriteHeaders(http2.HeadersFrameParam{StreamID: 3}); p.WriteContinuation(5, true, nil) },
		"a frame within headers":            func(p *peer) { p.WriteHeaders(http2.HeadersFrameParam{StreamID: 3}); p.WritePing(false, [8]byte{}) },
		"SETTINGS of 5 bytes":               raw(0, 0, 5, 4, 0, 0, 0, 0, 0, 0, 0, 0, 0, 0),
		"SETTINGS on stream 1":              raw(0, 0, 0, 4, 0, 0, 0, 0, 1),
		"an acknowledgement with bytes":     raw(0, 0, 6, 4, 1, 0, 0, 0, 0, 0, 0, 0, 0, 0, 0),
		"a window of 2^31":                  raw(0, 0, 6, 4, 0, 0, 0, 0, 0, 0, 4, 0x80, 0, 0, 0),
		"PING of 7 bytes":                   raw(0, 0, 7, 6, 0, 0, 0, 0, 0, 0, 0, 0, 0, 0, 0, 0),
		"PING on stream 1":                  raw(0, 0, 8, 6, 0, 0, 0, 0, 1, 0, 0, 0, 0, 0, 0, 0, 0),
		"RST_STREAM on stream 0":            raw(0, 0, 4, 3, 0, 0, 0, 0, 0, 0, 0, 0, 0),
		"RST_STREAM of 3 bytes":             raw(0, 0, 3, 3, 0, 0, 0, 0, 1, 0, 0, 0),
		"RST_STREAM of an idle stream":      func(p *peer) { p.WriteRSTStream(99, http2.ErrCodeCancel) },
		"PRIORITY of 4 bytes":               raw(0, 0, 4, 2, 0, 0, 0, 0, 1, 0, 0, 0, 0),
		"PUSH_PROMISE":                      raw(0, 0, 4, 5, 4, 0, 0, 0, 1, 0, 0, 0, 2),
		"WINDOW_UPDATE by 0":                raw(0, 0, 4, 8, 0, 0, 0, 0, 0, 0, 0, 0, 0),
		"padding longer than the frame":     raw(0, 0, 2, 0, 8, 0, 0, 0, 1, 9, 0),
		"a header block that can't be read": raw(0, 0, 4, 1, 4, 0, 0, 0, 3, 0xff, 0xff, 0xff, 0xff),
		"headers of 20,000 bytes": func(p *peer) {
			p.WriteHeaders(http2.HeadersFrameParam{StreamID: 3, BlockFragment: block("application/grpc", "x", long)[:16000]})
			p.WriteContinuation(3, true, block("application/grpc", "x", long)[16000:])
		},
		"headers without an end": func(p *peer) {
			p.WriteHeaders(http2.HeadersFrameParam{StreamID: 3})
			for i := 0; i < 50; i++ {
				p.WriteContinuation(3, false, []byte{0x82})
			}
		},
		"a stream that was used before": func(p *peer) { p.call(3, "application/grpc"); p.isAnswered(3); p.call(3, "application/grpc") },
		"no path": func(p *peer) {
			p.WriteHeaders(http2.HeadersFrameParam{StreamID: 3, BlockFragment: []byte{0x83}, EndHeaders: true, EndStream: true})
		},
		"upper case in a name": func(p *peer) {
			p.WriteHeaders(http2.HeadersFrameParam{StreamID: 3, BlockFragment: block("application/grpc", "UPPER", "x"), EndHeaders: true, EndStream: true})
		},
	}
	for name, send := range cases {
		for _, isLater := range []bool{false, true} {
			p := newPeer(t, at)
			if isLater {
				p.call(1, "application/grpc")
				if !p.isAnswered(1) {
					t.Fatal(name, "no first answer")
				}
			}
			send(p)
			isReset := false
			p.until(func(f http2.Frame) bool {
				isReset = f.Header().Type == http2.FrameRSTStream || f.Header().Type == http2.FrameGoAway
				return isReset
			})
			if isReset {
				p.Close()
				continue
			}
			if closed, _ := p.ends(); !closed {
				t.Errorf("%s (later: %v): the connection goes on", name, isLater)
			}
			p.Close()
		}
	}
	conn, ctx := dial(t, at)
	if _, err := lookup(ctx, conn); err != nil {
		t.Error(err)
	}
}

// TestARequestThatEndsWithItsHeaders has calls of gRPC without a message answered at once, on a connection
// of gRPC and on one whose first call was Connect's.
func TestARequestThatEndsWithItsHeaders(t *testing.T) {
	at := gateway(t, fake(t, healthy)).address
	for _, first := range []string{"application/grpc", "application/proto"} {
		p := newPeer(t, at)
		p.ReadMetaHeaders, p.AllowIllegalReads = hpack.NewDecoder(4096, nil), false
		p.call(1, first)
		p.isAnswered(1)
		begun := time.Now()
		for stream := uint32(3); stream < 9; stream += 2 {
			p.WriteHeaders(http2.HeadersFrameParam{StreamID: stream, BlockFragment: block("application/grpc"), EndHeaders: true, EndStream: true})
			status := ""
			p.until(func(f http2.Frame) bool {
				if it, isHeaders := f.(*http2.MetaHeadersFrame); isHeaders && it.StreamID == stream {
					for _, field := range it.Fields {
						if field.Name == "grpc-status" {
							status = field.Value
						}
					}
				}
				return status != ""
			})
			if status != "13" {
				t.Errorf("%s: the status is %q", first, status)
			}
		}
		if took := time.Since(begun); took > 5*time.Second {
			t.Errorf("%s: %v", first, took)
		}
	}
}

func TestFloodsEndTheirConnection(t *testing.T) {
	at := gateway(t, fake(t, healthy)).address
	for name, send := range map[string]func(*peer, int) error{
		"resets": func(p *peer, i int) error {
			stream := uint32(2*i + 3)
			p.WriteHeaders(http2.HeadersFrameParam{StreamID: stream, BlockFragment: block("application/grpc"), EndHeaders: true})
			return p.WriteRSTStream(stream, http2.ErrCodeCancel)
		},
		"pings":    func(p *peer, _ int) error { return p.WritePing(false, [8]byte{}) },
		"settings": func(p *peer, _ int) error { return p.WriteSettings() },
		"updates":  func(p *peer, _ int) error { return p.WriteWindowUpdate(0, 1) },
	} {
		for _, kind := range []string{"application/grpc", "application/proto"} {
			p := newPeer(t, at)
			p.call(1, kind)
			if !p.isAnswered(1) {
				t.Fatal(name)
			}
			isOver := make(chan struct{})
			go func(send func(*peer, int) error) {
				defer close(isOver)
				for i := 0; i < 20_000 && send(p, i) == nil; i++ {
				}
			}(send)
			if closed, _ := p.ends(); !closed {
				t.Errorf("%s by %s", name, kind)
			}
			p.Close()
			<-isOver
		}
	}
	conn, ctx := dial(t, at)
	if _, err := lookup(ctx, conn); err != nil {
		t.Error(err)
	}
}

func TestOddFirstBytes(t *testing.T) {
	at := gateway(t, fake(t, healthy)).address
	for _, text := range []string{"", "\x00", "GET", "PRI * HTTP/2.0\r\n\r\nXX\r\n\r\n", strings.Repeat("a", 100_000), "\x16\x03\x01\x00\x05hello"} {
		conn, err := net.Dial("tcp", at)
		if err != nil {
			t.Fatal(err)
		}
		conn.SetDeadline(time.Now().Add(limit))
		io.WriteString(conn, text)
		conn.(*net.TCPConn).CloseWrite()
		if _, err := io.ReadAll(conn); err != nil && !strings.Contains(err.Error(), "reset") {
			t.Errorf("%.10q: %v", text, err)
		}
		conn.Close()
	}
}

func TestNumbers(t *testing.T) {
	// A second session would be opened as soon as two calls meet, which is left to chance here.
	at := gateway(t, fake(t, healthy), "--status", "127.0.0.1:0", "--lookups", "1")
	conn, ctx := dial(t, at.address)
	for i := 0; i < 3; i++ {
		if _, err := lookup(ctx, conn); err != nil {
			t.Fatal(err)
		}
	}
	health.NewHealthClient(conn).Check(ctx, &health.HealthCheckRequest{})
	at.waitFor("pathd_gateway_pathd_up", "1")
	rows := at.rows()
	for name, wanted := range map[string]string{
		`pathd_gateway_calls_total{method="SegmentLookupService/Segments",protocol="grpc",status="0"}`: "3",
		`pathd_gateway_connections`:                           "1",
		`pathd_gateway_connections_total{kind="grpc"}`:        "1",
		`pathd_gateway_calls{request="whole"}`:                "0",
		`pathd_gateway_sessions{pool="lookups"}`:              "1",
		`pathd_gateway_connections_closed_total{why="flood"}`: "0",
	} {
		if rows[name] != wanted {
			t.Errorf("%s is %q", name, rows[name])
		}
	}
	waitUntil(t, "it is not healthy", func() bool {
		ok, err := http.Get("http://" + at.numbers + "/healthz")
		if err != nil {
			return false
		}
		ok.Body.Close()
		return ok.StatusCode == 200
	})
}
