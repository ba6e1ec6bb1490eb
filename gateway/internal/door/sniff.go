package door

import (
	"errors"
	"fmt"
	"io"
	"net"
	"strings"
	"time"

	"golang.org/x/net/http2"
	"golang.org/x/net/http2/hpack"
)

// Kind is what a connection speaks.
type Kind int

// The kinds.
const (
	HTTP1 Kind = iota
	HTTP2
	GRPC
)

const (
	// quiet is how long a client of HTTP/2 may have no request before it is taken for one of gRPC,
	// whose clients connect long before they call.
	quiet = 2 * time.Second
	// MostHeader is the most bytes of a request's headers.
	MostHeader = 1 << 14

	mostFirst = 1 << 16 // bytes up to the end of the first request's headers
	mostFrame = 1 << 14
)

// sniff answers what a connection speaks. What was read is read again by whoever serves it. A client
// of HTTP/2 gets the settings of the door at once, as some wait for them before their first request;
// the same settings of its server are then cut from what that writes.
func (c *Conn) sniff() (Kind, error) {
	defer c.isKnown.Store(true)
	defer c.SetDeadline(time.Time{})
	c.SetDeadline(time.Now().Add(firstLimit))
	isHTTP2, err := c.readPreface()
	if err != nil || !isHTTP2 {
		return HTTP1, err
	}
	c.guard = newGuard(c.door.options.Streams)
	c.skip = skip{left: frameHead}
	if err := c.writeSettings(); err != nil {
		return 0, err
	}
	kind, err := c.firstRequest()
	var slow net.Error
	if errors.As(err, &slow) && slow.Timeout() && c.seen.Len() >= len(http2.ClientPreface) {
		kind, err = GRPC, nil
	}
	if err != nil {
		c.goAway(err)
	}
	c.guard.isSplitting = kind == GRPC
	return kind, err
}

// readPreface reads up to the end of HTTP/2's preface, or to the first byte that is another.
func (c *Conn) readPreface() (bool, error) {
	var piece [len(http2.ClientPreface)]byte
	for c.seen.Len() < len(piece) {
		n, err := c.Conn.Read(piece[:len(piece)-c.seen.Len()])
		c.seen.Write(piece[:n])
		if !strings.HasPrefix(http2.ClientPreface, c.seen.String()) {
			return false, nil
		}
		if err != nil {
			return false, fmt.Errorf("no request: %w", err)
		}
	}
	return true, nil
}

func (c *Conn) writeSettings() error {
	err := http2.NewFramer(c.Conn, nil).WriteSettings(
		http2.Setting{ID: http2.SettingMaxConcurrentStreams, Val: c.door.options.Streams},
		http2.Setting{ID: http2.SettingMaxHeaderListSize, Val: MostHeader})
	if err != nil {
		return fmt.Errorf("settings: %w", err)
	}
	return nil
}

// firstRequest reads frames until the first request's headers are whole.
func (c *Conn) firstRequest() (Kind, error) {
	c.SetReadDeadline(time.Now().Add(quiet))
	stream := io.TeeReader(io.LimitReader(c.Conn, mostFirst), &c.seen)
	frames := http2.NewFramer(io.Discard, stream)
	frames.SetMaxReadFrameSize(mostFrame)
	frames.MaxHeaderListSize = MostHeader
	frames.ReadMetaHeaders = hpack.NewDecoder(4096, nil)
	for isFirst := true; ; isFirst = false {
		frame, err := frames.ReadFrame()
		if err != nil {
			return 0, fmt.Errorf("frames: %w", err)
		}
		if _, isSettings := frame.(*http2.SettingsFrame); isFirst && !isSettings {
			return 0, errors.New("the first frame has no settings")
		}
		if headers, isHeaders := frame.(*http2.MetaHeadersFrame); isHeaders {
			return kindOf(headers), nil
		}
	}
}

// kindOf answers what a connection speaks by its first request. Clients of Connect have calls of gRPC, too,
// and tools ask for reflection by gRPC before they call by Connect: theirs may have both.
func kindOf(headers *http2.MetaHeadersFrame) Kind {
	kind := HTTP2
	for _, field := range headers.Fields {
		switch {
		case field.Name == "content-type" && strings.HasPrefix(field.Value, "application/grpc"):
			kind = GRPC
		case field.Name == ":path" && strings.HasPrefix(field.Value, "/grpc.reflection."),
			field.Name == "user-agent" && strings.Contains(field.Value, "connect"):
			return HTTP2
		}
	}
	return kind
}

// goAway tells a peer of HTTP/2 why its connection is about to be closed. A peer that has been sent a
// part of a frame is sent nothing more, as a server may write a frame in two pieces.
func (c *Conn) goAway(reason error) {
	code := http2.ErrCodeProtocol
	var of http2.ConnectionError
	var flood *Flood
	switch {
	case errors.As(reason, &of):
		code = http2.ErrCode(of)
	case errors.As(reason, &flood):
		code = http2.ErrCodeEnhanceYourCalm
	case errors.Is(reason, http2.ErrFrameTooLarge):
		code = http2.ErrCodeFrameSize
	}
	c.Conn.SetWriteDeadline(time.Now().Add(time.Second)) // ends a write that is under way, too
	c.writing.Lock()
	defer c.writing.Unlock()
	if !c.bound.isWhole() {
		return
	}
	http2.NewFramer(c.Conn, nil).WriteGoAway(0, code, []byte(reason.Error()))
}

// skip cuts the first frame off what is written, which is a server's settings.
type skip struct {
	left int // bytes that are still cut, as far as they are known
	head []byte
}

const frameHead = 9

// cut answers what is left of some bytes.
func (s *skip) cut(p []byte) []byte {
	for len(p) > 0 && s.left > 0 {
		n := len(p)
		if n > s.left {
			n = s.left
		}
		if len(s.head) < frameHead {
			s.head = append(s.head, p[:n]...)
			if len(s.head) == frameHead {
				s.left += int(s.head[0])<<16 | int(s.head[1])<<8 | int(s.head[2])
			}
		}
		s.left -= n
		p = p[n:]
	}
	return p
}

// bound knows where the frames end that are written.
type bound struct {
	left int    // bytes of a frame that are still to come after its head
	head []byte // what was written of a head
}

// pass notes bytes that were written.
func (b *bound) pass(p []byte) {
	for len(p) > 0 {
		if b.left >= len(p) {
			b.left -= len(p)
			return
		}
		p, b.left = p[b.left:], 0
		n := frameHead - len(b.head)
		if n > len(p) {
			n = len(p)
		}
		b.head, p = append(b.head, p[:n]...), p[n:]
		if len(b.head) == frameHead {
			b.left = int(b.head[0])<<16 | int(b.head[1])<<8 | int(b.head[2])
			b.head = b.head[:0]
		}
	}
}

// isWhole answers whether what was written ends with a whole frame.
func (b *bound) isWhole() bool { return b.left == 0 && len(b.head) == 0 }
