package tests

import (
	"fmt"
	"net/http"
	"strconv"
	"strings"
	"testing"

	"golang.org/x/net/http2"
	"golang.org/x/net/http2/hpack"
	health "google.golang.org/grpc/health/grpc_health_v1"
	"google.golang.org/protobuf/proto"

	pki "pathd/gateway/internal/testpki"
	pb "pathd/segmentspb"
)

const (
	checkPath = "/grpc.health.v1.Health/Check"
	watchPath = "/grpc.health.v1.Health/Watch"
)

// begin sends the headers of a call of gRPC, and no request.
func (p *peer) begin(stream uint32, path string) {
	var out strings.Builder
	encoder := hpack.NewEncoder(&out)
	for _, it := range [][2]string{{":method", "POST"}, {":scheme", "http"}, {":path", path}, {"content-type", "application/grpc"}, {"te", "trailers"}} {
		encoder.WriteField(hpack.HeaderField{Name: it[0], Value: it[1]})
	}
	p.WriteHeaders(http2.HeadersFrameParam{StreamID: stream, BlockFragment: []byte(out.String()), EndHeaders: true})
}

// isRefusal answers whether a frame ends a call of gRPC that has no response.
func isRefusal(f http2.Frame) bool {
	return f.Header().Type == http2.FrameHeaders && f.Header().Flags.Has(http2.FlagHeadersEndStream)
}

// TestJSONThatIsNone has texts refused for which protojson does not return, or which are too deep.
func TestJSONThatIsNone(t *testing.T) {
	at := "http://" + gateway(t, fake(t, healthy)).address
	for name, client := range clients() {
		for _, text := range []string{
			`{"a":{"b":},"c":}`, `{"a":` + strings.Repeat("[", 200_000), `{"a":` + strings.Repeat(`{"b":`, 20_000) + "1" + strings.Repeat("}", 20_001),
		} {
			code, _, answer := post(t, client, at+lookupPath, []byte(text), "Content-Type", "application/json")
			if code != http.StatusBadRequest || !strings.Contains(answer, "is no JSON") {
				t.Errorf("%s, %.20s: %d %s", name, text, code, answer)
			}
		}
	}
}

// TestHealthChecksAreBounded has more watches and checks than one address has a share of: a quarter of 256.
func TestHealthChecksAreBounded(t *testing.T) {
	at := gateway(t, fake(t, healthy), "--streams", "512").address
	for _, path := range []string{watchPath, checkPath} {
		p := peerOf(t, dialFrom(t, other, at))
		for stream := uint32(1); stream < 2*300; stream += 2 {
			p.begin(stream, path)
		}
		for refused := 0; refused < 299-64; refused++ {
			if p.until(isRefusal) == nil {
				t.Fatal(path, refused, "calls are refused")
			}
		}
		conn, ctx := dial(t, at)
		if _, err := lookup(ctx, conn); err != nil {
			t.Error(path, err)
		}
		if _, err := health.NewHealthClient(conn).Check(ctx, &health.HealthCheckRequest{}); err != nil {
			t.Error(path, err)
		}
		p.Close()
	}
}

// TestWatchesOfUnknownServices has the program forget the names of services that there are not.
func TestWatchesOfUnknownServices(t *testing.T) {
	t.Setenv("GOGC", "20")
	at := gateway(t, fake(t, healthy), "--status", "127.0.0.1:0")
	for round := 0; round < 34; round++ {
		conn, ctx := dial(t, at.address)
		for i := 0; i < 30; i++ { // with those of the round before fewer than an address may have
			name := fmt.Sprint(round, " ", i, strings.Repeat("x", 100_000))
			watch, err := health.NewHealthClient(conn).Watch(ctx, &health.HealthCheckRequest{Service: name})
			pki.Must(t, err)
			if got, err := watch.Recv(); err != nil || got.Status != health.HealthCheckResponse_SERVICE_UNKNOWN {
				t.Fatal(got, err)
			}
		}
		conn.Close()
	}
	memory, err := strconv.ParseFloat(at.rows()["pathd_gateway_memory_bytes"], 64)
	if err != nil || memory > 70e6 {
		t.Errorf("%.0f bytes of memory, %v", memory, err)
	}
}

// TestRepliesOfClosedConnectionsAreNotOwed has clients go away while pages are added to what was found.
func TestRepliesOfClosedConnectionsAreNotOwed(t *testing.T) {
	asked, more := make(chan struct{}), make(chan struct{})
	address, _ := lister(t, many(t, 100), func() []byte {
		asked <- struct{}{}
		<-more
		return []byte{0xff, 0x01}
	})
	at := gateway(t, address, "--status", "127.0.0.1:0", "--deadline", "60")
	for _, kind := range []string{"application/grpc", "application/proto"} {
		p := newPeer(t, at.address)
		p.WriteHeaders(http2.HeadersFrameParam{StreamID: 1, BlockFragment: block(kind), EndHeaders: true})
		body, err := proto.Marshal(&pb.SegmentsRequest{SrcIsdAs: core, DstIsdAs: leaf})
		pki.Must(t, err)
		if kind == "application/grpc" {
			body = append([]byte{0, 0, 0, 0, byte(len(body))}, body...)
		}
		p.WriteData(1, true, body)
		<-asked
		p.Close()
		at.waitFor("pathd_gateway_connections", "0")
		more <- struct{}{}
		at.waitFor(`pathd_gateway_calls{request="whole"}`, "0")
		at.waitFor("pathd_gateway_owed_bytes", "0")
	}
}

// TestRepliesThatAreNotTakenAreBounded has a connection ask for more than it may leave, all at once.
func TestRepliesThatAreNotTakenAreBounded(t *testing.T) {
	const size, calls = 1 << 20, 64
	list := &pb.Segments{Segments: []*pb.PathSegment{{SegmentInfo: make([]byte, size)}}}
	large, err := proto.Marshal(&pb.SegmentsResponse{Segments: map[int32]*pb.Segments{1: list}})
	pki.Must(t, err)
	address := fake(t, func(content []byte) []byte {
		if content[0] == 2 && len(content) > 1 {
			return append([]byte{0x82}, large...)
		}
		return healthy(content)
	})
	for name, kinds := range map[string][2]string{
		"gRPC": {"application/grpc", "application/grpc"}, "Connect": {"application/proto", "application/proto"}, "gRPC after Connect": {"application/proto", "application/grpc"},
	} {
		at := gateway(t, address, "--status", "127.0.0.1:0", "--deadline", "60")
		p := newPeer(t, at.address)
		p.call(1, kinds[0])
		for i := uint32(1); i < calls; i++ {
			p.call(2*i+1, kinds[1])
		}
		waitUntil(t, name+": calls are not ended", func() bool {
			rows, done := at.rows(), 0.0
			for row, value := range rows {
				if strings.HasPrefix(row, "pathd_gateway_calls_total") {
					count, _ := strconv.ParseFloat(value, 64)
					done += count
				}
			}
			return done == calls
		})
		owed, _ := strconv.ParseFloat(at.rows()["pathd_gateway_owed_bytes"], 64)
		if owed < 4*size || owed > 10*size {
			t.Errorf("%s: %.0f bytes are owed", name, owed)
		}
		p.Close()
	}
}
