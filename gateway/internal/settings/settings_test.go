package settings

import (
	"errors"
	"flag"
	"reflect"
	"strings"
	"testing"
	"time"
)

func TestWords(t *testing.T) {
	s, err := Read([]string{"--deadline", "0.5", "-listen", "[::1]:0", "--lookups=3"}, new(strings.Builder))
	if err != nil || s.PeerConnections != 256 || s.Deadline != 500*time.Millisecond || s.Listen != "[::1]:0" || s.Lookups != 3 || s.Idle != 300*time.Second {
		t.Error(s, err)
	}
}

func TestSeveralAddresses(t *testing.T) {
	for words, wanted := range map[string][]string{
		"": {"127.0.0.1:30252"}, "--pathd [::1]:1": {"[::1]:1"}, "--pathd 127.0.0.1:1,[::1]:2": {"127.0.0.1:1", "[::1]:2"},
	} {
		if s, err := Read(strings.Fields(words), new(strings.Builder)); err != nil || !reflect.DeepEqual(s.Pathd, wanted) {
			t.Error(words, s.Pathd, err)
		}
	}
}

// TestTheShareOfAPeer has a quarter of all connections be the default, rounded up.
func TestTheShareOfAPeer(t *testing.T) {
	for words, wanted := range map[string]int{
		"--connections 10": 3, "--connections 1": 1, "--connections 10 --peer-connections 0": 0, "--peer-connections 7": 7,
	} {
		if s, err := Read(strings.Fields(words), new(strings.Builder)); err != nil || s.PeerConnections != wanted {
			t.Error(words, s.PeerConnections, err)
		}
	}
}

func TestWrongWords(t *testing.T) {
	for _, words := range []string{
		"--deadline 0", "--deadline NaN", "--deadline 3601", "--deadline x", "--lookups 0", "--lookups 61",
		"--lookups 40 --registrations 40", "--listen 127.0.0.1", "--listen :1", "--listen 127.0.0.1:x",
		"--listen 127.0.0.1:65536", "--cert a", "--key a", "--client-ca a", "--trust-server 127.0.0.1:1",
		"--status x", "--pathd 127.0.0.1:1,", "--pathd ,127.0.0.1:1", "--pathd 127.0.0.1:1,127.0.0.1:1",
		"--pathd 127.0.0.1:1,127.0.0.1:2 --registrations 2", "--roles a", "--roles a --cert a --key a", "--log xml", "--peer-connections -1", "--unknown", "word",
	} {
		var out strings.Builder
		if _, err := Read(strings.Fields(words), &out); err == nil || out.Len() == 0 {
			t.Errorf("%s: %q", words, out.String())
		}
	}
}

func TestHelp(t *testing.T) {
	var out strings.Builder
	if _, err := Read([]string{"--help"}, &out); !errors.Is(err, flag.ErrHelp) {
		t.Error(err)
	}
	for _, it := range []string{"--listen ADDR ", "--deadline SECONDS", "[10]", "--help"} {
		if !strings.Contains(out.String(), it) {
			t.Errorf("%q is missing", it)
		}
	}
}
