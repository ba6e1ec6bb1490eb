package tests

import (
	"context"
	"crypto/tls"
	"crypto/x509"
	"fmt"
	"net"
	"path/filepath"
	"strconv"
	"testing"
	"time"

	"golang.org/x/net/http2"
	"google.golang.org/grpc"
	"google.golang.org/grpc/codes"
	"google.golang.org/grpc/credentials"
	"google.golang.org/grpc/status"
	"google.golang.org/protobuf/proto"

	pki "pathd/gateway/internal/testpki"
	pb "pathd/segmentspb"
)

// other is an address of the loopback from which clients hurt those of 127.0.0.1.
const other = "127.0.0.2"

// dialFrom connects from an address of the loopback.
func dialFrom(t *testing.T, from, to string) net.Conn {
	t.Helper()
	dialer := net.Dialer{LocalAddr: &net.TCPAddr{IP: net.ParseIP(from)}}
	conn, err := dialer.Dial("tcp", to)
	pki.Must(t, err)
	t.Cleanup(func() { conn.Close() })
	conn.SetDeadline(time.Now().Add(limit))
	return conn
}

// served makes lookups and registrations by gRPC, and lookups by Connect, each over a new connection. None
// may be refused, or take long.
func served(t *testing.T, what, at string, options ...grpc.DialOption) {
	t.Helper()
	begun := time.Now()
	for round := 0; round < 5; round++ {
		conn, ctx := dial(t, at, options...)
		for call := 0; call < 10; call++ {
			if _, err := lookup(ctx, conn); err != nil {
				t.Fatal(what, ": ", err)
			}
			if err := register(ctx, conn, down(t, later)); err != nil {
				t.Fatal(what, ": ", err)
			}
		}
		conn.Close()
	}
	for name, client := range clients() {
		for call := 0; call < 10 && len(options) == 0; call++ {
			code, _, text := post(t, client, "http://"+at+lookupPath, []byte{8, 1}, "Content-Type", "application/proto")
			if code != 200 {
				t.Fatal(what, ", ", name, ": ", code, text)
			}
		}
	}
	if took := time.Since(begun); took > 10*time.Second {
		t.Errorf("%s: the calls of another address take %v", what, took)
	}
}

// TestCallsWithoutARequestHurtNobody has the calls of one address send headers alone: four connections
// with as many calls as they may have.
func TestCallsWithoutARequestHurtNobody(t *testing.T) {
	for _, kind := range []string{"application/grpc", "application/proto"} {
		at := gateway(t, fake(t, healthy), "--status", "127.0.0.1:0", "--deadline", "60")
		for c := 0; c < 4; c++ {
			p := peerOf(t, dialFrom(t, other, at.address))
			for i := uint32(0); i < 256; i++ {
				p.WriteHeaders(http2.HeadersFrameParam{StreamID: 2*i + 1, BlockFragment: block(kind), EndHeaders: true})
			}
		}
		at.waitFor(`pathd_gateway_calls{request="incomplete"}`, "256")
		served(t, kind, at.address)
		if whole := at.rows()[`pathd_gateway_calls{request="whole"}`]; whole != "0" {
			t.Errorf("%s: %s calls count", kind, whole)
		}
	}
}

// TestCallsWithoutARequestMakeRoom has the calls of an address take its share, which no further one of it
// has for a second. Those of all addresses make room for another one at once.
func TestCallsWithoutARequestMakeRoom(t *testing.T) {
	for _, kind := range []string{"application/grpc", "application/proto"} {
		at := gateway(t, fake(t, healthy), "--calls", "8", "--deadline", "60", "--status", "127.0.0.1:0")
		p := newPeer(t, at.address)
		for stream := uint32(1); stream < 16; stream += 2 {
			p.WriteHeaders(http2.HeadersFrameParam{StreamID: stream, BlockFragment: block(kind), EndHeaders: true})
		}
		for refused := 0; refused < 6; refused++ {
			if p.until(func(f http2.Frame) bool { return f.Header().Type == http2.FrameHeaders }) == nil {
				t.Fatal(kind, ": the calls are not refused")
			}
		}
		conn, ctx := dial(t, at.address)
		waitUntil(t, kind+": calls that have no request make no room", func() bool {
			_, err := lookup(ctx, conn)
			if err != nil && status.Code(err) != codes.ResourceExhausted {
				t.Error(err)
			}
			return err == nil
		})
		for host := 2; host < 8; host++ {
			of := peerOf(t, dialFrom(t, fmt.Sprint("127.0.0.", host), at.address))
			for stream := uint32(1); stream < 5; stream += 2 {
				of.WriteHeaders(http2.HeadersFrameParam{StreamID: stream, BlockFragment: block(kind), EndHeaders: true})
			}
		}
		at.waitFor(`pathd_gateway_calls{request="incomplete"}`, "8")
		p.Close()
		served(t, kind, at.address)
	}
}

// TestHalfHandshakesHurtNobody has one address begin 1,100 handshakes of TLS, and end none.
func TestHalfHandshakesHurtNobody(t *testing.T) {
	folder := t.TempDir()
	ca := tlsFiles(t, folder)
	at := gateway(t, fake(t, healthy), "--cert", filepath.Join(folder, "server.crt"), "--key", filepath.Join(folder, "server.key"), "--status", "127.0.0.1:0")
	for c := 0; c < 1100; c++ {
		dialFrom(t, other, at.address).Write([]byte{22, 3, 1, 2, 0, 1})
	}
	pool := x509.NewCertPool()
	pool.AddCert(ca.Certificate)
	served(t, "handshakes", at.address, grpc.WithTransportCredentials(credentials.NewTLS(&tls.Config{RootCAs: pool})))
	if open, err := strconv.Atoi(at.rows()["pathd_gateway_connections"]); err != nil || open > 64+5 {
		t.Error(open, "connections")
	}
}

// TestIdleConnectionsHurtNobody has one address, and then five, open more connections than there are
// places, and say nothing, or something and then nothing.
func TestIdleConnectionsHurtNobody(t *testing.T) {
	at := gateway(t, fake(t, healthy), "--connections", "64", "--status", "127.0.0.1:0")
	for hosts := 1; hosts <= 5; hosts += 4 {
		for host := 0; host < hosts; host++ {
			for c := 0; c < 150; c++ {
				conn := dialFrom(t, fmt.Sprint("127.0.0.", host+2), at.address)
				if c%2 == 1 {
					peerOf(t, conn).call(1, "application/proto")
				}
			}
		}
		served(t, fmt.Sprint(hosts, " addresses"), at.address)
	}
	if open, err := strconv.Atoi(at.rows()["pathd_gateway_connections"]); err != nil || open > 64 {
		t.Error(open, "connections")
	}
}

// TestBusyConnectionsKeepTheirPlaces has an address with its share of connections, each of which has a
// call under way, get no further one. One without a call makes room.
func TestBusyConnectionsKeepTheirPlaces(t *testing.T) {
	quit := make(chan struct{})
	address := fake(t, func(content []byte) []byte {
		if len(content) > 1 {
			<-quit
		}
		return healthy(content)
	})
	at := gateway(t, address, "--connections", "8", "--deadline", "60", "--status", "127.0.0.1:0")
	var busy []*peer
	for c := 0; c < 2; c++ {
		p := newPeer(t, at.address)
		p.call(1, "application/grpc")
		at.waitFor(`pathd_gateway_calls{request="whole"}`, fmt.Sprint(c+1))
		busy = append(busy, p)
	}
	time.Sleep(6 * time.Second) // longer than one without a call has its place for sure
	if isClosed, _ := newPeer(t, at.address).ends(); !isClosed {
		t.Error("a third connection")
	}
	close(quit)
	for _, p := range busy {
		if !p.isAnswered(1) {
			t.Error("a call without a reply")
		}
	}
	if isClosed, _ := newPeer(t, at.address).ends(); !isClosed {
		t.Error("a third connection, while two have had calls before")
	}
	waitUntil(t, "no connection makes room", func() bool {
		p := newPeer(t, at.address)
		p.call(1, "application/grpc")
		return p.isAnswered(1)
	})
}

// TestRepliesThatNobodyReadsHurtNobody has one address ask for 160 MiB of replies, and read nothing.
func TestRepliesThatNobodyReadsHurtNobody(t *testing.T) {
	const size = 1 << 20
	list := &pb.Segments{Segments: []*pb.PathSegment{{SegmentInfo: make([]byte, size)}}}
	large, err := proto.Marshal(&pb.SegmentsResponse{Segments: map[int32]*pb.Segments{1: list}})
	pki.Must(t, err)
	address := fake(t, func(content []byte) []byte {
		if string(content) == "\x02\x08\x01" { // what peer.call asks for
			return append([]byte{0x82}, large...)
		}
		return healthy(content)
	})
	at := gateway(t, address, "--status", "127.0.0.1:0", "--deadline", "60")
	for c := 0; c < 20; c++ {
		p := peerOf(t, dialFrom(t, other, at.address))
		for i := uint32(0); i < 8; i++ {
			p.call(2*i+1, []string{"application/grpc", "application/proto"}[c%2])
		}
	}
	waitUntil(t, "little is owed", func() bool { return owedBy(at) > 24*size })
	conn, ctx := dial(t, at.address)
	for call := 0; call < 50; call++ {
		if _, err := lookup(ctx, conn); err != nil {
			t.Fatal(err)
		}
	}
	if owed := owedBy(at); owed > 33*size+4*size {
		t.Errorf("one address has %.0f bytes of replies", owed)
	}
}

func owedBy(at *process) float64 {
	owed, _ := strconv.ParseFloat(at.rows()["pathd_gateway_owed_bytes"], 64)
	return owed
}

// TestACertificateHasAShare has clients of several addresses with one certificate share what one peer may
// have, beside those of another certificate.
func TestACertificateHasAShare(t *testing.T) {
	folder := t.TempDir()
	ca := tlsFiles(t, folder)
	file := func(name string) string { return filepath.Join(folder, name) }
	quit := make(chan struct{})
	t.Cleanup(func() { close(quit) })
	address := fake(t, func(content []byte) []byte {
		if content[0] == 1 {
			<-quit
		}
		return healthy(content)
	})
	at := gateway(t, address, "--cert", file("server.crt"), "--key", file("server.key"), "--client-ca", file("ca.crt"),
		"--status", "127.0.0.1:0", "--connections", "64", "--peer-connections", "2")
	pool := x509.NewCertPool()
	pool.AddCert(ca.Certificate)
	connect := func(from, certificate string) (*grpc.ClientConn, context.Context, error) {
		pair, err := tls.LoadX509KeyPair(file(certificate+".crt"), file(certificate+".key"))
		pki.Must(t, err)
		config := &tls.Config{RootCAs: pool, Certificates: []tls.Certificate{pair}}
		ctx, cancel := context.WithTimeout(context.Background(), limit)
		t.Cleanup(cancel)
		conn, err := grpc.DialContext(ctx, at.address, grpc.WithTransportCredentials(credentials.NewTLS(config)), dialing(from))
		pki.Must(t, err)
		t.Cleanup(func() { conn.Close() })
		return conn, ctx, err
	}
	for c := 0; c < 2; c++ {
		conn, ctx, _ := connect(fmt.Sprint("127.0.0.", c+2), "client")
		go register(ctx, conn, down(t, later))
		at.waitFor(`pathd_gateway_calls{request="whole"}`, fmt.Sprint(c+1))
	}
	conn, ctx, _ := connect("127.0.0.4", "client")
	if _, err := lookup(ctx, conn); err == nil {
		t.Error("a certificate has a third connection")
	}
	conn, ctx, _ = connect("127.0.0.4", "server")
	if _, err := lookup(ctx, conn); err != nil {
		t.Error("another certificate: ", err)
	}
}
