// Package testpathd runs the program PATHD for tests.
package testpathd

import (
	"bufio"
	"bytes"
	"io"
	"os"
	"os/exec"
	"path/filepath"
	"regexp"
	"testing"
)

// Server is a server with a store of its own.
type Server struct {
	// Where it listens, also once it was started again.
	Address string

	t       testing.TB
	options []string
	running *exec.Cmd
}

var serves = regexp.MustCompile(`^pathd: serves .* at (127\.0\.0\.1:\d+):`)

// Start starts a server with an empty store, whose checkpoint area and journal have so many sectors, and
// with further options of pathd run. It ends with the test. A test is skipped where PATHD is not set, which
// is the path of the built program.
func Start(t testing.TB, checkpoint, journal string, options ...string) *Server {
	program := os.Getenv("PATHD")
	if program == "" {
		t.Skip("PATHD is the path of the built program")
	}
	store := filepath.Join(t.TempDir(), "store")
	if err := exec.Command(program, "format", store, "--checkpoint", checkpoint, "--journal", journal).Run(); err != nil {
		t.Fatal(err)
	}
	if lists(program) {
		options = append(options, "--lists")
	}
	s := &Server{Address: "127.0.0.1:0", t: t, options: append([]string{"run", store}, options...)}
	t.Cleanup(s.Kill)
	s.Restart()
	return s
}

// lists answers whether a server lists by an option alone.
func lists(program string) bool {
	help, _ := exec.Command(program, "run", "--help").Output()
	return bytes.Contains(help, []byte("--lists"))
}

// Restart starts the server again that was killed, with its store and its address.
func (s *Server) Restart() {
	s.t.Helper()
	s.running = exec.Command(os.Getenv("PATHD"), append(s.options, "--listen", s.Address)...)
	notices, err := s.running.StderrPipe()
	if err != nil {
		s.t.Fatal(err)
	}
	if err := s.running.Start(); err != nil {
		s.t.Fatal(err)
	}
	lines, found := bufio.NewScanner(notices), []string(nil)
	for found == nil && lines.Scan() {
		found = serves.FindStringSubmatch(lines.Text())
	}
	if found == nil {
		s.t.Fatalf("the server doesn't listen: %s", lines.Text())
	}
	s.Address = found[1]
	go io.Copy(io.Discard, notices)
}

// Kill ends the server by SIGKILL. It does nothing where the server has ended, or was not started.
func (s *Server) Kill() {
	if s.running != nil && s.running.Process != nil {
		s.running.Process.Kill()
		s.running.Wait()
	}
}
