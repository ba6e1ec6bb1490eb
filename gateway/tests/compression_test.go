package tests

import (
	"bytes"
	"compress/gzip"
	"encoding/base64"
	"io"
	"net/url"
	"strings"
	"testing"

	"golang.org/x/net/http2"
	"google.golang.org/grpc"
	"google.golang.org/grpc/codes"
	_ "google.golang.org/grpc/encoding/gzip"
	"google.golang.org/grpc/status"
	"google.golang.org/protobuf/proto"

	pki "pathd/gateway/internal/testpki"
	pb "pathd/segmentspb"
)

// inGzip answers some bytes in gzip, and outOf what is in gzip.
func inGzip(t *testing.T, content []byte) []byte {
	var out bytes.Buffer
	to := gzip.NewWriter(&out)
	to.Write(content)
	pki.Must(t, to.Close())
	return out.Bytes()
}

func outOf(t *testing.T, content []byte) []byte {
	t.Helper()
	from, err := gzip.NewReader(bytes.NewReader(content))
	pki.Must(t, err)
	out, err := io.ReadAll(from)
	pki.Must(t, err)
	return out
}

// large answers as a pathd whose lookups find a segment of 300,000 bytes that gzip makes small.
func large(content []byte) []byte {
	if content[0] != 2 || len(content) == 1 {
		return healthy(content)
	}
	return append([]byte{0x82}, largeResponse()...)
}

func largeResponse() []byte {
	segment := &pb.PathSegment{SegmentInfo: make([]byte, 300_000)}
	out, _ := proto.Marshal(&pb.SegmentsResponse{Segments: map[int32]*pb.Segments{1: {Segments: []*pb.PathSegment{segment}}}})
	return out
}

// TestGzipByConnect has requests and responses in gzip, and responses that are small or not wanted in gzip as
// they are.
func TestGzipByConnect(t *testing.T) {
	at := "http://" + gateway(t, fake(t, large)).address
	request, wanted := []byte{8, 1}, largeResponse()
	for name, client := range clients() {
		for encoding, isPacked := range map[string]bool{
			"gzip": true, "br, gzip;q=0.5": true, "identity": false, "gzip;q=0": false, "br": false,
		} {
			code, header, text := post(t, client, at+lookupPath, inGzip(t, request),
				"Content-Type", "application/proto", "Content-Encoding", "gzip", "Accept-Encoding", encoding)
			if code != 200 || (header.Get("Content-Encoding") == "gzip") != isPacked || header.Get("Accept-Encoding") != "gzip" {
				t.Fatal(name, encoding, code, header)
			}
			got := []byte(text)
			if isPacked {
				got = outOf(t, got)
			}
			if !bytes.Equal(got, wanted) || isPacked && len(text) > 3_000 {
				t.Errorf("%s, %s: %d bytes", name, encoding, len(text))
			}
		}
		code, header, _ := post(t, client, at+registrationPath, nil, "Content-Type", "application/proto", "Accept-Encoding", "gzip")
		if code != 200 || header.Get("Content-Encoding") != "" {
			t.Error(name, code, header)
		}
	}
}

// TestWhatGzipHolds has a request refused that has more bytes than are taken, once it is out of gzip.
func TestWhatGzipHolds(t *testing.T) {
	at := gateway(t, fake(t, healthy)).address
	conn, ctx := dial(t, at)
	for size, isTaken := range map[int]bool{131_072: true, 131_073: false, 100_000_000: false} {
		// An unknown field of bytes, after its tag and its length.
		content := append([]byte{0xfa, 0x7f}, appendLength(size-6)...)
		content = append(content, make([]byte, size-len(content))...)
		packed := inGzip(t, content)
		for name, client := range clients() {
			code, _, text := post(t, client, "http://"+at+registrationPath, packed, "Content-Type", "application/proto", "Content-Encoding", "gzip")
			if (code == 200) != isTaken || !isTaken && (code != 429 || !strings.Contains(text, "resource_exhausted")) {
				t.Errorf("%s, %d bytes: %d %s", name, size, code, text)
			}
		}
		err := conn.Invoke(ctx, registrationPath, &rawMessage{content}, &rawMessage{}, grpc.UseCompressor("gzip"), grpc.ForceCodec(rawCodec{}))
		if (err == nil) != isTaken || !isTaken && status.Code(err) != codes.ResourceExhausted {
			t.Errorf("%d bytes: %v", size, err)
		}
	}
}

// appendLength answers a length as four bytes of a varint.
func appendLength(length int) []byte {
	return []byte{byte(length) | 0x80, byte(length>>7) | 0x80, byte(length>>14) | 0x80, byte(length >> 21)}
}

type rawMessage struct{ content []byte }

// rawCodec sends bytes as they are.
type rawCodec struct{}

func (rawCodec) Name() string                       { return "proto" }
func (rawCodec) Marshal(v any) ([]byte, error)      { return v.(*rawMessage).content, nil }
func (rawCodec) Unmarshal(data []byte, v any) error { v.(*rawMessage).content = data; return nil }

// TestGzipByGRPC has the response to a request in gzip be in gzip, and another one as it is; and nothing be
// owed once both were taken.
func TestGzipByGRPC(t *testing.T) {
	gate := gateway(t, fake(t, large), "--status", "127.0.0.1:0")
	wanted := largeResponse()
	for _, first := range []string{"application/grpc", "application/proto"} { // the servers of both
		p := newPeer(t, gate.address)
		p.WriteSettings(http2.Setting{ID: http2.SettingInitialWindowSize, Val: 1 << 20})
		p.WriteWindowUpdate(0, 1<<20)
		p.call(1, first)
		p.isAnswered(1)
		for i, isPacked := range []bool{true, false} {
			stream := uint32(3 + 2*i)
			body, more := []byte{8, 1}, []string{}
			if isPacked {
				body, more = inGzip(t, body), []string{"grpc-encoding", "gzip"}
			}
			p.WriteHeaders(http2.HeadersFrameParam{StreamID: stream, BlockFragment: block("application/grpc", more...), EndHeaders: true})
			p.WriteData(stream, true, append([]byte{map[bool]byte{true: 1}[isPacked], 0, 0, 0, byte(len(body))}, body...))
			var got []byte
			p.until(func(f http2.Frame) bool {
				if data, isData := f.(*http2.DataFrame); isData && data.StreamID == stream {
					got = append(got, data.Data()...)
				}
				return f.Header().StreamID == stream && f.Header().Flags.Has(http2.FlagHeadersEndStream) && f.Header().Type == http2.FrameHeaders
			})
			if len(got) < 5 || (got[0] == 1) != isPacked || isPacked && len(got) > 3_000 {
				t.Fatalf("%s, stream %d: %d bytes", first, stream, len(got))
			}
			if got = got[5:]; isPacked {
				got = outOf(t, got)
			}
			if !bytes.Equal(got, wanted) {
				t.Errorf("%s, stream %d: another response", first, stream)
			}
		}
		gate.waitFor("pathd_gateway_owed_bytes", "0")
	}
	client := clients()["HTTP/1.1"]
	post(t, client, "http://"+gate.address+lookupPath, []byte{8, 1}, "Content-Type", "application/proto", "Accept-Encoding", "gzip")
	gate.waitFor("pathd_gateway_owed_bytes", "0")
}

// TestLookupsByGet has lookups by GET: as text and in base64, with padding and without, in gzip, and in JSON.
func TestLookupsByGet(t *testing.T) {
	at := "http://" + gateway(t, pathd(t, "127.0.0.1:0").address).address + lookupPath
	registration := down(t, later)
	body, err := proto.Marshal(registration)
	pki.Must(t, err)
	wanted, err := proto.Marshal(&pb.SegmentsResponse{Segments: registration.Segments})
	pki.Must(t, err)
	asked, err := proto.Marshal(&pb.SegmentsRequest{SrcIsdAs: core, DstIsdAs: leaf})
	pki.Must(t, err)
	const inJSON = `{"srcIsdAs":"561850441793808","dstIsdAs":"561850441793809"}`
	for name, client := range clients() {
		post(t, client, strings.Replace(at, lookupPath, registrationPath, 1), body, "Content-Type", "application/proto")
		for what, query := range map[string]url.Values{
			"text":     {"connect": {"v1"}, "encoding": {"proto"}, "message": {string(asked)}},
			"base64":   {"connect": {"v1"}, "encoding": {"proto"}, "message": {base64.RawURLEncoding.EncodeToString(asked)}, "base64": {"1"}},
			"padded":   {"encoding": {"proto"}, "message": {base64.URLEncoding.EncodeToString(asked)}, "base64": {"1"}},
			"gzip":     {"encoding": {"proto"}, "message": {base64.RawURLEncoding.EncodeToString(inGzip(t, asked))}, "base64": {"1"}, "compression": {"gzip"}},
			"identity": {"encoding": {"proto"}, "message": {string(asked)}, "compression": {"identity"}},
		} {
			code, header, text := get(t, client, at+"?"+query.Encode(), "Connect-Timeout-Ms", "5000")
			if code != 200 || text != string(wanted) || header.Get("Content-Type") != "application/proto" || header.Get("Vary") != "Accept-Encoding" || header.Get("Cache-Control") != "no-cache" {
				t.Errorf("%s, %s: %d %v %q", name, what, code, header, text)
			}
		}
		code, header, text := get(t, client, at+"?"+url.Values{"encoding": {"json"}, "message": {inJSON}}.Encode())
		if code != 200 || header.Get("Content-Type") != "application/json" || !strings.Contains(text, `"asEntries"`) {
			t.Error(name, code, header, text)
		}
	}
}
