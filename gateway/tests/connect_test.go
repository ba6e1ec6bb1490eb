package tests

import (
	"bufio"
	"bytes"
	"crypto/tls"
	"io"
	"net"
	"net/http"
	"strings"
	"testing"

	"golang.org/x/net/http2"
	"google.golang.org/protobuf/encoding/protojson"
	"google.golang.org/protobuf/proto"

	pb "pathd/segmentspb"
)

const (
	lookupPath       = "/" + lookupService + "/Segments"
	registrationPath = "/" + registrationService + "/SegmentsRegistration"
)

// clients are a client of HTTP/1.1 and one of HTTP/2 without TLS.
func clients() map[string]*http.Client {
	return map[string]*http.Client{
		"HTTP/1.1": {Transport: new(http.Transport), Timeout: limit},
		"HTTP/2": {Timeout: limit, Transport: &http2.Transport{AllowHTTP: true,
			DialTLS: func(network, address string, _ *tls.Config) (net.Conn, error) { return net.Dial(network, address) }}},
	}
}

// post answers the status, the headers and the body of a response.
func post(t *testing.T, client *http.Client, url string, body []byte, headers ...string) (int, http.Header, string) {
	t.Helper()
	return do(t, client, http.MethodPost, url, body, headers...)
}

func do(t *testing.T, client *http.Client, method, url string, body []byte, headers ...string) (int, http.Header, string) {
	t.Helper()
	request, err := http.NewRequest(method, url, bytes.NewReader(body))
	if err != nil {
		t.Fatal(err)
	}
	for i := 0; i < len(headers); i += 2 {
		request.Header.Set(headers[i], headers[i+1])
	}
	response, err := client.Do(request)
	if err != nil {
		t.Fatal(err)
	}
	defer response.Body.Close()
	content, err := io.ReadAll(response.Body)
	if err != nil {
		t.Fatal(err)
	}
	return response.StatusCode, response.Header, string(content)
}

// get answers the same of a GET.
func get(t *testing.T, client *http.Client, url string, headers ...string) (int, http.Header, string) {
	t.Helper()
	return do(t, client, http.MethodGet, url, nil, headers...)
}

func TestConnect(t *testing.T) {
	at := "http://" + gateway(t, pathd(t, "127.0.0.1:0").address).address
	registration, wanted := down(t, later), &pb.SegmentsResponse{Segments: down(t, later).Segments}
	request := &pb.SegmentsRequest{SrcIsdAs: core, DstIsdAs: leaf}
	for name, client := range clients() {
		body, _ := proto.Marshal(registration)
		code, _, text := post(t, client, at+registrationPath, body, "Content-Type", "application/proto", "Connect-Protocol-Version", "1", "Connect-Timeout-Ms", "5000")
		if code != 200 || text != "" {
			t.Error(name, code, text)
		}
		body, _ = proto.Marshal(request)
		code, header, text := post(t, client, at+lookupPath, body, "Content-Type", "application/proto")
		found := new(pb.SegmentsResponse)
		if err := proto.Unmarshal([]byte(text), found); err != nil || code != 200 || !proto.Equal(found, wanted) || header.Get("Content-Type") != "application/proto" {
			t.Error(name, code, header, err)
		}
		body, _ = protojson.Marshal(request)
		code, header, text = post(t, client, at+lookupPath, body, "Content-Type", "application/json; charset=utf-8")
		found = new(pb.SegmentsResponse)
		if err := protojson.Unmarshal([]byte(text), found); err != nil || code != 200 || !proto.Equal(found, wanted) || header.Get("Content-Type") != "application/json" {
			t.Error(name, code, text, err)
		}
		body, _ = protojson.Marshal(registration)
		if code, _, text = post(t, client, at+registrationPath, body, "Content-Type", "application/json"); code != 200 || text != "{}" {
			t.Error(name, code, text)
		}
		code, header, text = post(t, client, at+lookupPath, []byte("{}"), "Content-Type", "application/json")
		if code != 400 || header.Get("pathd-code") != "0x41" || !strings.Contains(text, `"code":"invalid_argument"`) {
			t.Error(name, code, header, text)
		}
	}
}

func TestWhatConnectRefuses(t *testing.T) {
	at := "http://" + gateway(t, fake(t, healthy)).address
	kind := []string{"Content-Type", "application/proto"}
	for name, client := range clients() {
		for what, c := range map[string]struct {
			path    string
			body    []byte
			headers []string
			status  int
			text    string
		}{
			"another path":     {"/x", nil, kind, 404, ""},
			"no type":          {lookupPath, nil, nil, 415, ""},
			"another type":     {lookupPath, nil, []string{"Content-Type", "text/plain"}, 415, ""},
			"another charset":  {lookupPath, nil, []string{"Content-Type", "application/json; charset=latin1"}, 415, ""},
			"another version":  {lookupPath, nil, append([]string{"Connect-Protocol-Version", "2"}, kind...), 400, "invalid_argument"},
			"an encoding":      {lookupPath, nil, append([]string{"Content-Encoding", "br"}, kind...), 501, "unimplemented"},
			"no gzip":          {lookupPath, []byte{8, 1}, append([]string{"Content-Encoding", "gzip"}, kind...), 400, "invalid_argument"},
			"a long timeout":   {lookupPath, nil, append([]string{"Connect-Timeout-Ms", "12345678901"}, kind...), 400, "invalid_argument"},
			"a bad timeout":    {lookupPath, nil, append([]string{"Connect-Timeout-Ms", "-1"}, kind...), 400, "invalid_argument"},
			"no time":          {lookupPath, []byte{8, 1}, append([]string{"Connect-Timeout-Ms", "0"}, kind...), 504, "deadline_exceeded"},
			"too large":        {lookupPath, make([]byte, 131_073), kind, 429, "resource_exhausted"},
			"no JSON":          {lookupPath, []byte("{"), []string{"Content-Type", "application/json"}, 400, "invalid_argument"},
			"a streaming type": {lookupPath, nil, []string{"Content-Type", "application/connect+proto"}, 415, ""},
		} {
			code, _, text := post(t, client, at+c.path, c.body, c.headers...)
			if code != c.status || !strings.Contains(text, c.text) {
				t.Errorf("%s, %s: %d %s", name, what, code, text)
			}
		}
		for query, wanted := range map[string]struct {
			status int
			text   string
		}{
			registrationPath + "?connect=v1&encoding=proto&message=": {405, ""},
			lookupPath:                                                         {415, ""},
			lookupPath + "?encoding=text&message=":                             {415, ""},
			lookupPath + "?encoding=proto":                                     {400, "invalid_argument"},
			lookupPath + "?encoding=proto&message=*&base64=1":                  {400, "invalid_argument"},
			lookupPath + "?encoding=proto&message=&connect=v2":                 {400, "invalid_argument"},
			lookupPath + "?encoding=proto&message=CAE&base64=1&compression=br": {501, "unimplemented"},
			lookupPath + "?encoding=json&message=%7B%22dstIsdAs%22:%221%22%7D": {200, "{}"},
		} {
			if code, _, text := get(t, client, at+query); code != wanted.status || !strings.Contains(text, wanted.text) {
				t.Errorf("%s, %s: %d %s", name, query, code, text)
			}
		}
	}
}

// TestTheMostOfHeaders has a request of HTTP/1 with 16,384 bytes of headers answered, its first line and its
// last empty one among them, and one with a byte more refused. HTTP/2 counts 32 bytes more for each field.
func TestTheMostOfHeaders(t *testing.T) {
	at := gateway(t, fake(t, healthy)).address
	for size, wanted := range map[int]string{16_384: "HTTP/1.1 200 OK", 16_385: "HTTP/1.1 431 Request Header Fields Too Large", 20_000: "HTTP/1.1 431 Request Header Fields Too Large"} {
		head := "POST " + lookupPath + " HTTP/1.1\r\nHost: x\r\nContent-Type: application/proto\r\nContent-Length: 2\r\nX: "
		head += strings.Repeat("x", size-len(head)-4) + "\r\n\r\n"
		conn := dialFrom(t, "127.0.0.1", at)
		io.WriteString(conn, head+"\x08\x01")
		if line, err := bufio.NewReader(conn).ReadString('\n'); err != nil || strings.TrimSpace(line) != wanted {
			t.Errorf("%d bytes: %q, %v", size, line, err)
		}
	}
	client := clients()["HTTP/2"]
	if code, _, text := post(t, client, "http://"+at+lookupPath, []byte{8, 1}, "Content-Type", "application/proto", "X", strings.Repeat("x", 15_000)); code != 200 {
		t.Error(code, text)
	}
}

// TestGRPCAfterConnect has calls of both on one connection of HTTP/2, whose first one is Connect's.
func TestGRPCAfterConnect(t *testing.T) {
	at := "http://" + gateway(t, fake(t, healthy)).address
	client := clients()["HTTP/2"]
	for i := 0; i < 2; i++ {
		if code, _, _ := post(t, client, at+lookupPath, []byte{8, 1}, "Content-Type", "application/proto"); code != 200 {
			t.Error(code)
		}
		request, _ := http.NewRequest(http.MethodPost, at+lookupPath, bytes.NewReader([]byte{0, 0, 0, 0, 2, 8, 1}))
		request.Header.Set("Content-Type", "application/grpc")
		request.Header.Set("Te", "trailers")
		response, err := client.Do(request)
		if err != nil {
			t.Fatal(err)
		}
		content, _ := io.ReadAll(response.Body)
		response.Body.Close()
		if !bytes.Equal(content, make([]byte, 5)) || response.Trailer.Get("Grpc-Status") != "0" {
			t.Errorf("% x %v", content, response.Trailer)
		}
	}
}

// clientOverTLS answers a client of the first protocol of a configuration.
func clientOverTLS(config *tls.Config) *http.Client {
	if config.NextProtos[0] == "h2" {
		return &http.Client{Timeout: limit, Transport: &http2.Transport{TLSClientConfig: config}}
	}
	return &http.Client{Timeout: limit, Transport: &http.Transport{TLSClientConfig: config}}
}
