package door

import (
	"bytes"
	"encoding/binary"
	"fmt"
	"sync/atomic"
	"time"

	"golang.org/x/net/http2"
)

// What a peer of HTTP/2 may send. The servers of Debian 12 bound neither the frames of a request's
// headers (CVE-2023-45288) nor requests that are reset at once (CVE-2023-44487).
const (
	mostHeaderFrames = 9       // HEADERS with its CONTINUATION
	mostHeaderBytes  = 1 << 16 // of these, in one request
	mostOfFrame      = 1 << 14

	controlBurst = 1000 // frames such as RST_STREAM and PING at once, beside those of open streams
	controlRate  = 100  // such frames a second

	// WINDOW_UPDATE, and DATA of few bytes that does not end its stream, are noted by grpc-go with more
	// bytes than they have until they are taken. A peer may send them as often as the frames above, and
	// more often the more it calls and is sent.
	smallData       = 256
	smallOfRequest  = 8    // such frames for each request
	writtenForSmall = 1024 // one for so many bytes that were written
)

// Flood is the error of a connection that sends what a guard does not let pass.
type Flood struct{ reason string }

func (f *Flood) Error() string { return f.reason }

// guard looks at the heads of the frames that a peer sends.
type guard struct {
	preface int // bytes of the preface that are still to come
	head    [frameHead]byte
	have    int // bytes of head
	left    int // bytes of the frame after its head

	newest uint32 // the stream that was opened last

	// isSplitting has HEADERS that end their stream handed on as HEADERS that don't, and an empty DATA
	// that does: grpc-go of Debian 12 waits for the message of the former. ended is the stream of such a
	// one whose headers are not whole yet.
	isSplitting bool
	ended       uint32

	headerFrames, headerBytes int
	control, small            bucket
	written                   atomic.Int64 // bytes that small has no frames for yet
}

func newGuard(streams uint32) *guard {
	most := controlBurst + 4*float64(streams)
	full := bucket{most: most, level: most}
	return &guard{preface: len(http2.ClientPreface), control: full, small: full}
}

// wrote notes bytes that were written to the peer.
func (g *guard) wrote(bytes int) { g.written.Add(int64(bytes)) }

// look hands bytes on, whole heads of frames at a time. It answers an error where they are not let pass.
func (g *guard) look(p []byte, now func() time.Time, passed *bytes.Buffer) error {
	for len(p) > 0 {
		switch {
		case g.preface > 0:
			p = pass(p, &g.preface, passed)
		case g.left > 0:
			p = pass(p, &g.left, passed)
		default:
			n := copy(g.head[g.have:], p)
			g.have += n
			p = p[n:]
			if g.have < frameHead {
				return nil
			}
			if err := g.frame(now); err != nil {
				return err
			}
			g.handOnHead(passed)
		}
		if g.ended != 0 && g.left == 0 && g.headerFrames == 0 {
			http2.NewFramer(passed, nil).WriteData(g.ended, true, nil)
			g.ended = 0
		}
	}
	return nil
}

// handOnHead hands on what there is of a head.
func (g *guard) handOnHead(passed *bytes.Buffer) {
	passed.Write(g.head[:g.have])
	g.have = 0
}

func pass(p []byte, left *int, passed *bytes.Buffer) []byte {
	n := len(p)
	if n > *left {
		n = *left
	}
	*left -= n
	passed.Write(p[:n])
	return p[n:]
}

// frame looks at a whole head.
func (g *guard) frame(now func() time.Time) error {
	length := int(g.head[0])<<16 | int(g.head[1])<<8 | int(g.head[2])
	kind, flags := http2.FrameType(g.head[3]), http2.Flags(g.head[4])
	g.left = length
	if length > mostOfFrame {
		return http2.ConnectionError(http2.ErrCodeFrameSize)
	}
	stream := binary.BigEndian.Uint32(g.head[5:]) & (1<<31 - 1)
	if !g.mayBeOn(kind, stream) {
		return http2.ConnectionError(http2.ErrCodeProtocol)
	}
	of := &g.control
	switch kind {
	case http2.FrameHeaders, http2.FrameContinuation:
		if g.isSplitting && kind == http2.FrameHeaders && flags.Has(http2.FlagHeadersEndStream) {
			g.head[4] &^= byte(http2.FlagHeadersEndStream)
			g.ended = stream
		}
		return g.headers(length, flags)
	case http2.FrameData:
		if length >= smallData || flags.Has(http2.FlagDataEndStream) {
			return nil
		}
		of = &g.small
	case http2.FrameWindowUpdate:
		of = &g.small
	case http2.FrameSettings, http2.FramePing:
		if flags.Has(http2.FlagPingAck) {
			return nil
		}
	}
	if of == &g.small {
		of.add(float64(g.written.Swap(0)) / writtenForSmall)
	}
	if !of.take(now()) {
		return &Flood{fmt.Sprintf("too many frames of the kind %v", kind)}
	}
	return nil
}

// mayBeOn answers whether a client may send a frame of a kind on a stream: grpc-go lets pass what is on
// streams that were not opened yet, and pushes.
func (g *guard) mayBeOn(kind http2.FrameType, stream uint32) bool {
	switch kind {
	case http2.FrameHeaders:
		if stream > g.newest {
			g.newest = stream
		}
	case http2.FrameData, http2.FrameRSTStream, http2.FrameWindowUpdate:
		return stream <= g.newest
	case http2.FramePushPromise:
		return false
	}
	return true
}

func (g *guard) headers(length int, flags http2.Flags) error {
	g.headerFrames++
	g.headerBytes += length
	if g.headerFrames > mostHeaderFrames || g.headerBytes > mostHeaderBytes {
		return &Flood{"the headers of a request are too large"}
	}
	if flags.Has(http2.FlagHeadersEndHeaders) {
		g.headerFrames, g.headerBytes = 0, 0
		g.small.add(smallOfRequest)
	}
	return nil
}

// bucket has as many places as may be taken now, and fills by controlRate a second.
type bucket struct {
	most, level float64
	last        time.Time
}

func (b *bucket) add(places float64) {
	b.level += places
	if b.level > b.most {
		b.level = b.most
	}
}

func (b *bucket) take(now time.Time) bool {
	if !b.last.IsZero() {
		b.add(now.Sub(b.last).Seconds() * controlRate)
	}
	b.last = now
	if b.level < 1 {
		return false
	}
	b.level--
	return true
}
