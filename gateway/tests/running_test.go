// Package tests tries the built program from outside. GATEWAY is its path and PATHD that of pathd.
package tests

import (
	"bufio"
	"context"
	"encoding/binary"
	"errors"
	"io"
	"net"
	"net/http"
	"os"
	"os/exec"
	"path/filepath"
	"regexp"
	"strings"
	"sync"
	"syscall"
	"testing"
	"time"

	"google.golang.org/grpc"

	pki "pathd/gateway/internal/testpki"
)

const limit = time.Minute

// process is a program that a test has started.
type process struct {
	t       *testing.T
	command *exec.Cmd
	address string
	numbers string // of a gateway, where --status has it listen
	log     *notes
	ended   chan error
	over    chan struct{} // closed once it has ended
}

// notes are the lines that a program has printed.
type notes struct {
	lock  sync.Mutex
	lines []string
}

func (n *notes) add(line string) {
	n.lock.Lock()
	defer n.lock.Unlock()
	n.lines = append(n.lines, line)
}

// String answers all lines.
func (n *notes) String() string {
	n.lock.Lock()
	defer n.lock.Unlock()
	return strings.Join(n.lines, "\n")
}

// count answers how many lines have a text.
func (n *notes) count(text string) (count int) {
	for _, line := range strings.Split(n.String(), "\n") {
		if strings.Contains(line, text) {
			count++
		}
	}
	return count
}

// start starts a program whose lines a function looks for the address in.
func start(t *testing.T, address func(line string) string, words ...string) *process {
	t.Helper()
	p := &process{t: t, command: exec.Command(words[0], words[1:]...), log: new(notes), ended: make(chan error, 1), over: make(chan struct{})}
	out, in, err := os.Pipe()
	pki.Must(t, err)
	p.command.Stdout, p.command.Stderr = in, in
	pki.Must(t, p.command.Start())
	in.Close()
	t.Cleanup(func() { p.command.Process.Kill(); <-p.over }) // before its store's folder is removed
	found := make(chan string, 1)
	go func() {
		lines := bufio.NewScanner(out)
		for lines.Scan() {
			p.log.add(lines.Text())
			if rest := strings.TrimPrefix(lines.Text(), "numbers at "); rest != lines.Text() {
				p.numbers = rest // before the line that has the address
			}
			if it := address(lines.Text()); it != "" && len(found) == 0 {
				found <- it
			}
		}
		close(found)
		p.ended <- p.command.Wait()
		close(p.over)
	}()
	select {
	case p.address = <-found:
	case <-time.After(limit):
	}
	if p.address == "" {
		t.Fatal("the program does not serve: ", p.log)
	}
	return p
}

// end has a process end by a signal, and answers its status.
func (p *process) end(by os.Signal) error {
	p.command.Process.Signal(by)
	return p.wait()
}

func (p *process) wait() error {
	select {
	case err := <-p.ended:
		return err
	case <-time.After(limit):
		p.t.Fatal("the process does not end")
		return nil
	}
}

func (p *process) signal(by syscall.Signal) { p.command.Process.Signal(by) }

// rows answers the numbers of a gateway that was started with --status, by their names with labels.
func (p *process) rows() map[string]string {
	p.t.Helper()
	response, err := http.Get("http://" + p.numbers + "/metrics")
	pki.Must(p.t, err)
	defer response.Body.Close()
	rows := map[string]string{}
	for lines := bufio.NewScanner(response.Body); lines.Scan(); {
		if at := strings.LastIndexByte(lines.Text(), ' '); at > 0 {
			rows[lines.Text()[:at]] = lines.Text()[at+1:]
		}
	}
	return rows
}

// waitFor waits until one of a gateway's numbers has a value.
func (p *process) waitFor(name, value string) {
	p.t.Helper()
	waitUntil(p.t, name+" does not become "+value, func() bool { return p.rows()[name] == value })
}

// waitUntil waits until something holds, and says what does not where it never does.
func waitUntil(t *testing.T, what string, holds func() bool) {
	t.Helper()
	for begun := time.Now(); !holds(); time.Sleep(20 * time.Millisecond) {
		if time.Since(begun) > limit {
			t.Fatal(what)
		}
	}
}

// gateway starts a gateway before a pathd.
func gateway(t *testing.T, pathd string, words ...string) *process {
	t.Helper()
	program := os.Getenv("GATEWAY")
	if program == "" {
		t.Skip("GATEWAY is the path of pathd-gateway")
	}
	all := append([]string{program, "--listen", "127.0.0.1:0", "--pathd", pathd}, words...)
	return start(t, func(line string) string {
		if rest := strings.TrimPrefix(line, "serves at "); rest != line {
			return rest
		}
		return ""
	}, all...)
}

// pathd starts a server with a new store, at an address.
func pathd(t *testing.T, listen string) *process {
	t.Helper()
	store := filepath.Join(t.TempDir(), "store")
	program := os.Getenv("PATHD")
	if program == "" {
		t.Skip("PATHD is the path of pathd")
	}
	if out, err := exec.Command(program, "format", store, "--checkpoint", "64", "--journal", "516").CombinedOutput(); err != nil {
		t.Fatal(err, string(out))
	}
	words := []string{program, "run", store, "--listen", listen, "--cores", "1-ff00:0:110"}
	if help, _ := run(program, "run", "--help"); strings.Contains(help, " --lists ") {
		words = append(words, "--lists")
	}
	return start(t, addressOfPathd, words...)
}

var loopback = regexp.MustCompile(`127\.0\.0\.1:[0-9]+`)

func addressOfPathd(line string) string { return loopback.FindString(line) }

// fake plays a pathd that answers each frame by a function: nil ends the session.
func fake(t *testing.T, answer func(content []byte) []byte) string {
	listener, err := net.Listen("tcp", "127.0.0.1:0")
	pki.Must(t, err)
	t.Cleanup(func() { listener.Close() })
	go func() {
		for {
			conn, err := listener.Accept()
			if err != nil {
				return
			}
			go serveFake(conn, answer)
		}
	}()
	return listener.Addr().String()
}

func serveFake(conn net.Conn, answer func([]byte) []byte) {
	defer conn.Close()
	for {
		var length uint32
		if binary.Read(conn, binary.BigEndian, &length) != nil {
			return
		}
		content := make([]byte, length)
		if _, err := io.ReadFull(conn, content); err != nil {
			return
		}
		reply := answer(content)
		if reply == nil {
			return
		}
		conn.Write(append(binary.BigEndian.AppendUint32(nil, uint32(len(reply))), reply...))
	}
}

// healthy answers as a pathd without segments.
func healthy(content []byte) []byte {
	switch {
	case len(content) == 1 && content[0] == 2:
		return []byte{0xff, 0x41}
	case content[0] == 2:
		return []byte{0x82}
	case content[0] == 4:
		return append([]byte{0x84}, make([]byte, 24)...)
	}
	return append([]byte{0x81}, make([]byte, 24)...)
}

// dial answers a connection of gRPC, and a context for its calls.
func dial(t *testing.T, address string, options ...grpc.DialOption) (*grpc.ClientConn, context.Context) {
	t.Helper()
	ctx, cancel := context.WithTimeout(context.Background(), limit)
	if len(options) == 0 {
		options = []grpc.DialOption{grpc.WithInsecure()}
	}
	conn, err := grpc.DialContext(ctx, address, append(options, grpc.WithBlock())...)
	pki.Must(t, err)
	t.Cleanup(func() { conn.Close(); cancel() })
	return conn, ctx
}

// run carries out a command, and answers what it prints and its status.
func run(words ...string) (string, int) {
	out, err := exec.Command(words[0], words[1:]...).CombinedOutput()
	var ended *exec.ExitError
	if errors.As(err, &ended) {
		return string(out), ended.ExitCode()
	}
	return string(out), 0
}
