package tests

import (
	"bufio"
	"crypto/elliptic"
	"net/http"
	"os"
	"path/filepath"
	"regexp"
	"strings"
	"testing"

	pki "pathd/gateway/internal/testpki"
)

var (
	name  = regexp.MustCompile(`\bpathd_gateway_[a-z0-9_]+\b`)
	parts = regexp.MustCompile(`_(bucket|sum|count)$`)
)

// TestTheNumbersHaveTheNamesOfThePages has the alert rules and the dashboard name no other numbers than
// the page of numbers, which docs/GATEWAY.md lists. TOP is the top of the repository.
func TestTheNumbersHaveTheNamesOfThePages(t *testing.T) {
	top := os.Getenv("TOP")
	if top == "" {
		t.Skip("TOP is the top of the repository")
	}
	known := namesOfPage(t)
	for _, file := range []string{"deploy/pathd-gateway.rules.yml", "deploy/pathd-gateway-dashboard.json", "docs/GATEWAY.md"} {
		content, err := os.ReadFile(filepath.Join(top, file))
		pki.Must(t, err)
		found := map[string]bool{}
		for _, it := range name.FindAllString(string(content), -1) {
			if found[parts.ReplaceAllString(it, "")] = true; !known[parts.ReplaceAllString(it, "")] {
				t.Errorf("%s has %s", file, it)
			}
		}
		for it := range known {
			if !found[it] && !strings.HasSuffix(file, ".yml") {
				t.Errorf("%s lacks %s", file, it)
			}
		}
	}
}

// namesOfPage answers the names of the numbers of a gateway that has all of them.
func namesOfPage(t *testing.T) map[string]bool {
	isd, folder := pki.NewISD(t, elliptic.P256(), 1), t.TempDir()
	isd.WriteTRC(t, folder)
	tlsFiles(t, folder)
	pki.Must(t, os.Mkdir(filepath.Join(folder, "trust"), 0o700))
	isd.WriteTRC(t, filepath.Join(folder, "trust"))
	at := gateway(t, fake(t, healthy), "--status", "127.0.0.1:0", "--trust", filepath.Join(folder, "trust"), "--trust-server", "127.0.0.1:1",
		"--cert", filepath.Join(folder, "server.crt"), "--key", filepath.Join(folder, "server.key"))
	response, err := http.Get("http://" + at.numbers + "/metrics")
	pki.Must(t, err)
	defer response.Body.Close()
	known := map[string]bool{}
	for lines := bufio.NewScanner(response.Body); lines.Scan(); {
		if words := strings.Fields(lines.Text()); words[0] == "#" && words[1] == "TYPE" {
			known[words[2]] = true
		}
	}
	return known
}
