// Package settings reads the command line of the gateway.
package settings

import (
	"errors"
	"flag"
	"fmt"
	"io"
	"net"
	"strconv"
	"time"

	"pathd"
	"pathd/gateway/internal/shares"
)

// The most of numbers on the command line.
const (
	mostSessions    = 60 // of the 64 that pathd has
	mostSeconds     = 3600
	mostStreams     = 4096
	mostConnections = 65_536
	mostCalls       = 65_536
	mostSegments    = 4096

	isLeftOut = -1 // a number that another one decides
)

// Settings are what the command line says.
type Settings struct {
	Listen, Status             string
	Pathd                      []string // an address at least, and none of them twice
	Lookups, Registrations     int
	MostSegments               int
	Deadline, Idle             time.Duration
	Streams, Connections       int
	PeerConnections, Calls     int
	Certificate, Key, ClientCA string
	Roles, Log                 string
	Trust, TrustServer         string
	Version                    bool
}

const about = `Answers what daemons and control services of a SCION AS call, by asking pathd: SegmentLookupService,
SegmentRegistrationService and TrustMaterialService, by gRPC and by Connect. SIGHUP has it read
certificates and trust again. SIGTERM ends it once the calls under way have ended.

usage: pathd-gateway [OPTIONS]

`

// Read reads the words of a command line. Where they are wrong it writes why to out; with --help it
// writes the help there, and answers flag.ErrHelp.
func Read(words []string, out io.Writer) (*Settings, error) {
	s := &Settings{}
	set := flag.NewFlagSet("pathd-gateway", flag.ContinueOnError)
	set.SetOutput(io.Discard)
	var help help
	s.add(adder{set, &help})
	set.BoolVar(&s.Version, "version", false, "")
	help.add("version", "", "prints the version")
	help.add("help", "", "prints help")
	err := set.Parse(words)
	if err == nil && set.NArg() > 0 {
		err = fmt.Errorf("what is %q?", set.Arg(0))
	}
	if err == nil {
		err = s.check()
	}
	switch {
	case errors.Is(err, flag.ErrHelp):
		fmt.Fprint(out, about, help.String())
	case err != nil:
		fmt.Fprintf(out, "pathd-gateway: %v\n", err)
	}
	return s, err
}

// add adds the options that have a value.
func (s *Settings) add(add adder) {
	add.address(&s.Listen, "listen", "127.0.0.1:30262", "where it listens; port 0 is any free one")
	add.addresses(&s.Pathd, "pathd", "127.0.0.1:30252", "the address of pathd, which may be started later, or of several that all get the registrations")
	add.number(&s.Lookups, "lookups", 2, 1, mostSessions, "sessions with pathd for lookups")
	add.number(&s.Registrations, "registrations", 1, 1, mostSessions, "sessions with pathd for registrations")
	add.number(&s.MostSegments, "most-segments", 256, pathd.MostFound, mostSegments, "segments that a lookup is answered with")
	add.seconds(&s.Deadline, "deadline", 10*time.Second, "the longest that a call may take")
	add.seconds(&s.Idle, "idle", 300*time.Second, "the longest that a connection may have no call")
	add.number(&s.Streams, "streams", 256, 1, mostStreams, "calls under way in a connection")
	add.number(&s.Calls, "calls", 1024, 1, mostCalls, "calls under way in all, of which one peer has a quarter at the most")
	add.number(&s.Connections, "connections", 1024, 1, mostConnections, "open connections")
	add.number(&s.PeerConnections, "peer-connections", isLeftOut, 0, mostConnections, "open connections of one peer, a quarter of --connections if left out; 0 is no bound")
	add.text(&s.Certificate, "cert", "FILE", "a certificate and its chain in PEM, for TLS; without it there is no TLS")
	add.text(&s.Key, "key", "FILE", "the key of the certificate, in PEM")
	add.text(&s.ClientCA, "client-ca", "FILE", "authorities in PEM: clients need a certificate of one")
	add.text(&s.Roles, "roles", "FILE", "which client certificates may look up, register and remove; without it any may but remove")
	add.text(&s.Log, "log", "text|json", "writes a line for each registration, removal and refusal; without it none")
	add.text(&s.Trust, "trust", "FOLDER", "TRCs and chains, by which registrations are verified; without it none is")
	add.text(&s.TrustServer, "trust-server", "ADDR", "a control service that is asked for chains and TRCs that the folder lacks")
	add.text(&s.Status, "status", "ADDR", "where GET /metrics is answered with numbers; without it nowhere")
}

// check answers an error where settings don't fit each other, and sets what others decide.
func (s *Settings) check() error {
	if s.PeerConnections == isLeftOut {
		s.PeerConnections = int(shares.Quarter(int64(s.Connections)))
	}
	switch {
	case (s.Certificate == "") != (s.Key == ""):
		return errors.New("--cert and --key are given together")
	case s.ClientCA != "" && s.Certificate == "":
		return errors.New("--client-ca needs --cert")
	case s.Roles != "" && s.ClientCA == "":
		return errors.New("--roles needs --client-ca: a client has roles by its certificate")
	case s.Log != "" && s.Log != "text" && s.Log != "json":
		return errors.New("--log is text or json")
	case s.TrustServer != "" && s.Trust == "":
		return errors.New("--trust-server needs --trust: the folder has the TRCs to begin with")
	case len(s.Pathd) > 1 && s.Registrations > 1:
		return errors.New("--registrations is 1 where --pathd has several addresses")
	case s.Lookups+s.Registrations > mostSessions:
		return fmt.Errorf("pathd has no room for %d sessions", s.Lookups+s.Registrations)
	}
	for name, it := range map[string]string{"status": s.Status, "trust-server": s.TrustServer} {
		if it == "" {
			continue
		}
		if err := checkAddress(it); err != nil {
			return fmt.Errorf("--%s: %w", name, err)
		}
	}
	return nil
}

func checkAddress(text string) error {
	host, port, err := net.SplitHostPort(text)
	if err != nil || host == "" {
		return fmt.Errorf("%q is no address such as 127.0.0.1:30262 or [::1]:30262", text)
	}
	if _, err := strconv.ParseUint(port, 10, 16); err != nil {
		return fmt.Errorf("%q has no port", text)
	}
	return nil
}
