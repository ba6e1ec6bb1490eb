package tests

import (
	"encoding/hex"
	"os"
	"os/exec"
	"path/filepath"
	"regexp"
	"strings"
	"testing"

	"google.golang.org/protobuf/encoding/protojson"
	"google.golang.org/protobuf/proto"

	pb "pathd/segmentspb"

	pki "pathd/gateway/internal/testpki"
)

// tool skips a test whose program is not installed.
func tool(t *testing.T, name string) {
	if _, err := exec.LookPath(name); err != nil {
		t.Skip(name, " is not installed")
	}
}

// command answers the command of docs/GATEWAY.md that begins with a word, for a gateway at an address.
func command(t *testing.T, word, address string) string {
	top := os.Getenv("TOP")
	if top == "" {
		t.Skip("TOP is the top of the repository")
	}
	page, err := os.ReadFile(filepath.Join(top, "docs/GATEWAY.md"))
	pki.Must(t, err)
	found := regexp.MustCompile("(?m)^```[^\n]*\n(" + word + " (?:.|\n)*?)\n```$").FindStringSubmatch(string(page))
	if found == nil {
		t.Fatal("the page has no ", word)
	}
	return strings.ReplaceAll(found[1], "127.0.0.1:30262", address)
}

// TestTheCommandOfThePage carries out the command of the page, by each version of HTTP, before a pathd.
func TestTheCommandOfThePage(t *testing.T) {
	tool(t, "curl")
	at := gateway(t, pathd(t, "127.0.0.1:0").address).address
	conn, ctx := dial(t, at)
	request := down(t, later)
	pki.Must(t, register(ctx, conn, request))
	for _, version := range []string{"--http1.1", "--http2", "--http2-prior-knowledge"} {
		words := strings.Replace(command(t, "curl", at), "curl ", "curl -sS --fail "+version+" ", 1)
		text, status := run("sh", "-c", words)
		found := new(pb.SegmentsResponse)
		if err := protojson.Unmarshal([]byte(text), found); err != nil || status != 0 || !proto.Equal(found, &pb.SegmentsResponse{Segments: request.Segments}) {
			t.Errorf("%s: %d, %s, %v", version, status, text, err)
		}
	}
}

func TestCurlOverTLS(t *testing.T) {
	tool(t, "curl")
	folder := t.TempDir()
	tlsFiles(t, folder)
	file := func(name string) string { return filepath.Join(folder, name) }
	at := gateway(t, fake(t, healthy), "--cert", file("server.crt"), "--key", file("server.key")).address
	for version, wanted := range map[string]string{"--http1.1": "1.1 200 application/proto", "--http2": "2 200 application/proto"} {
		text, status := run("curl", "-sS", version, "--cacert", file("ca.crt"), "-H", "Content-Type: application/proto",
			"--data-binary", "\x08\x01", "-o", file("reply"), "-w", "%{http_version} %{http_code} %{content_type}", "https://"+at+lookupPath)
		if text != wanted || status != 0 {
			t.Errorf("%s: %d %s", version, status, text)
		}
	}
}

// TestH2load has nghttp2's client send requests of gRPC and of Connect, by many streams at a time.
func TestH2load(t *testing.T) {
	tool(t, "h2load")
	at := gateway(t, fake(t, healthy)).address
	file := filepath.Join(t.TempDir(), "request")
	for kind, body := range map[string]string{"application/grpc": "00000000020801", "application/proto": "0801"} {
		content, _ := hex.DecodeString(body)
		pki.Must(t, os.WriteFile(file, content, 0o600))
		text, status := run("h2load", "-n", "2000", "-c", "8", "-m", "32", "-d", file, "-H", "content-type: "+kind, "-H", "te: trailers", "http://"+at+lookupPath)
		wanted := "requests: 2000 total, 2000 started, 2000 done, 2000 succeeded, 0 failed, 0 errored, 0 timeout"
		if !strings.Contains(text, wanted) || status != 0 {
			t.Errorf("%s: %d %s", kind, status, text)
		}
	}
}
