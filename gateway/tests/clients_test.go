package tests

import (
	"bytes"
	"encoding/json"
	"testing"

	legacy "github.com/golang/protobuf/proto"
	"golang.org/x/net/http2"
	"golang.org/x/net/http2/hpack"
	health "google.golang.org/grpc/health/grpc_health_v1"
	reflection "google.golang.org/grpc/reflection/grpc_reflection_v1alpha"
	"google.golang.org/protobuf/proto"
	"google.golang.org/protobuf/types/descriptorpb"

	pki "pathd/gateway/internal/testpki"
	pb "pathd/segmentspb"
)

// reply is what a stream of HTTP/2 has come to: its headers with the trailing ones, and its body.
type reply struct {
	fields map[string]string
	body   []byte
}

// ask sends headers in this order and a body on a stream, and answers the reply. Connections of Go's clients
// begin by settings without push and a larger window.
func (p *peer) ask(stream uint32, body []byte, fields ...string) reply {
	p.t.Helper()
	var head bytes.Buffer
	encoder := hpack.NewEncoder(&head)
	for i := 0; i < len(fields); i += 2 {
		encoder.WriteField(hpack.HeaderField{Name: fields[i], Value: fields[i+1]})
	}
	p.WriteHeaders(http2.HeadersFrameParam{StreamID: stream, BlockFragment: head.Bytes(), EndHeaders: true})
	p.WriteData(stream, true, body)
	its := reply{fields: map[string]string{}}
	ended := p.until(func(f http2.Frame) bool {
		switch it := f.(type) {
		case *http2.MetaHeadersFrame:
			for _, field := range it.Fields {
				if it.StreamID == stream {
					its.fields[field.Name] = field.Value
				}
			}
		case *http2.DataFrame:
			if it.StreamID == stream {
				its.body = append(its.body, it.Data()...)
			}
		}
		return f.Header().StreamID == stream && f.Header().Flags.Has(http2.FlagHeadersEndStream) && f.Header().Type != http2.FrameRSTStream
	})
	if ended == nil {
		p.t.Fatalf("stream %d has no end: %v", stream, its.fields)
	}
	return its
}

// newReader answers a peer that reads headers, after the first frames of a client of Go.
func newReader(t *testing.T, address string) *peer {
	p := newPeer(t, address)
	p.ReadMetaHeaders, p.AllowIllegalReads = hpack.NewDecoder(4096, nil), false
	return p
}

// messageOf answers a message of gRPC, and readMessage reads the first one of a body.
func messageOf(t *testing.T, it legacy.Message) []byte {
	content, err := legacy.Marshal(it)
	pki.Must(t, err)
	return append([]byte{0, 0, 0, byte(len(content) >> 8), byte(len(content))}, content...)
}

func readMessage(t *testing.T, body []byte, into legacy.Message) {
	t.Helper()
	if len(body) < 5 || body[0] != 0 {
		t.Fatalf("no message: % x", body)
	}
	pki.Must(t, legacy.Unmarshal(body[5:], into))
}

// askReflection has a client look for a service by both versions of reflection, of which grpcurl and buf take
// the older one where there is no other, and answers the next free stream.
func askReflection(t *testing.T, p *peer, headers func(path string) []string) uint32 {
	t.Helper()
	const v1, v1alpha = "/grpc.reflection.v1.ServerReflection/ServerReflectionInfo", "/grpc.reflection.v1alpha.ServerReflection/ServerReflectionInfo"
	asked := messageOf(t, &reflection.ServerReflectionRequest{
		MessageRequest: &reflection.ServerReflectionRequest_FileContainingSymbol{FileContainingSymbol: lookupService}})
	for i, path := range []string{v1, v1alpha} {
		got := p.ask(uint32(1+2*i), asked, headers(path)...)
		response, file := new(reflection.ServerReflectionResponse), new(descriptorpb.FileDescriptorProto)
		readMessage(t, got.body, response)
		pki.Must(t, proto.Unmarshal(response.GetFileDescriptorResponse().GetFileDescriptorProto()[0], file))
		if got.fields["grpc-status"] != "0" || file.GetPackage() != "proto.control_plane.v1" {
			t.Error(path, got.fields, file.GetPackage())
		}
	}
	return 5
}

// TestTheBytesOfGrpcurl has what `grpcurl -plaintext` sends: reflection, and on the same connection a call
// and a health check, with the headers of grpc-go in their order.
func TestTheBytesOfGrpcurl(t *testing.T) {
	at := gateway(t, fake(t, healthy)).address
	p := newReader(t, at)
	headers := func(path string) []string {
		return []string{":method", "POST", ":scheme", "http", ":path", path, ":authority", at, "content-type", "application/grpc",
			"user-agent", "grpcurl/v1.9.1 grpc-go/1.61.0", "te", "trailers", "grpc-accept-encoding", "gzip"}
	}
	stream := askReflection(t, p, headers)
	got := p.ask(stream, messageOf(t, &pb.SegmentsRequest{SrcIsdAs: core, DstIsdAs: leaf}), headers(lookupPath)...)
	readMessage(t, got.body, new(pb.SegmentsResponse))
	if got.fields["grpc-status"] != "0" || got.fields["content-type"] != "application/grpc" {
		t.Error(got.fields)
	}
	got = p.ask(stream+2, messageOf(t, new(health.HealthCheckRequest)), headers("/grpc.health.v1.Health/Check")...)
	its := new(health.HealthCheckResponse)
	if readMessage(t, got.body, its); its.Status != health.HealthCheckResponse_SERVING {
		t.Error(its)
	}
	got = p.ask(stream+4, messageOf(t, new(pb.SegmentsRequest)), append(headers(lookupPath), "grpc-timeout", "5S")...)
	if got.fields["grpc-status"] != "3" || got.fields["pathd-code"] != "0x41" {
		t.Error(got.fields)
	}
}

// TestTheBytesOfBufCurl has what `buf curl --http2-prior-knowledge` sends: reflection by gRPC, and on the same
// connection a call by Connect, with the headers of connect-go.
func TestTheBytesOfBufCurl(t *testing.T) {
	at := gateway(t, fake(t, healthy)).address
	p := newReader(t, at)
	stream := askReflection(t, p, func(path string) []string {
		return []string{":authority", at, ":method", "POST", ":path", path, ":scheme", "http", "content-type", "application/grpc+proto",
			"grpc-accept-encoding", "gzip", "grpc-timeout", "119997m", "te", "trailers",
			"user-agent", "grpc-go-connect/1.11.1 (go1.20.6) buf/1.26.1", "accept-encoding", "identity"}
	})
	content, err := proto.Marshal(&pb.SegmentsRequest{SrcIsdAs: core, DstIsdAs: leaf})
	pki.Must(t, err)
	headers := []string{":authority", at, ":method", "POST", ":path", lookupPath, ":scheme", "http", "accept-encoding", "gzip",
		"connect-protocol-version", "1", "connect-timeout-ms", "119870", "content-type", "application/proto",
		"user-agent", "connect-go/1.11.1 (go1.20.6) buf/1.26.1"}
	got := p.ask(stream, content, headers...)
	if got.fields[":status"] != "200" || got.fields["content-type"] != "application/proto" || len(got.body) != 0 {
		t.Error(got)
	}
	got = p.ask(stream+2, nil, headers...)
	var refusal struct{ Code, Message string }
	if err := json.Unmarshal(got.body, &refusal); err != nil || got.fields[":status"] != "400" || refusal.Code != "invalid_argument" {
		t.Error(got, err)
	}
}

// TestConnectAfterGRPCOfItsClient has a client of Connect call by gRPC first, and then by Connect.
func TestConnectAfterGRPCOfItsClient(t *testing.T) {
	at := gateway(t, fake(t, healthy)).address
	p := newReader(t, at)
	got := p.ask(1, []byte{0, 0, 0, 0, 2, 8, 1}, ":authority", at, ":method", "POST", ":path", lookupPath, ":scheme", "http",
		"content-type", "application/grpc+proto", "te", "trailers", "user-agent", "grpc-go-connect/1.11.1 (go1.20.6)")
	if got.fields["grpc-status"] != "0" {
		t.Error(got)
	}
	got = p.ask(3, []byte{8, 1}, ":authority", at, ":method", "POST", ":path", lookupPath, ":scheme", "http", "content-type", "application/proto")
	if got.fields[":status"] != "200" {
		t.Error(got)
	}
}
