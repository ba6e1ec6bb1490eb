package pathd

import (
	"bufio"
	"encoding/binary"
	"fmt"
	"net"
	"sync"
	"syscall"
	"testing"
	"time"
)

// store is a pathd that a test plays: it answers any number of sessions, and is stopped and started
// again at its port, which no other process gets meanwhile.
type store struct {
	t       *testing.T
	address string

	lock     sync.Mutex
	answer   func(content []byte) []byte // nil where there is no reply
	listener net.Listener
	conns    []net.Conn
	commands [][]byte // the contents of the commands that came
	lookups  int      // how many lookups and lists came
}

// taken finds nothing, and acknowledges each command.
func taken(content []byte) []byte {
	switch Kind(content[0]) {
	case KindLookup:
		return []byte{replied | lookup}
	case KindList:
		return []byte{replied | content[0], 0}
	}
	return append([]byte{replied | content[0]}, make([]byte, 24)...)
}

func silent([]byte) []byte { return nil }

func refuses(code Code) func([]byte) []byte {
	return func([]byte) []byte { return []byte{refused, byte(code)} }
}

// newStore answers a store that doesn't listen yet.
func newStore(t *testing.T, answer func([]byte) []byte) *store {
	s := &store{t: t, address: heldAddress(t), answer: answer}
	t.Cleanup(s.stop)
	return s
}

// heldAddress answers an address of the loopback whose port is bound by a socket that doesn't listen,
// as long as the test goes on: others may listen there that have SO_REUSEADDR, as Go's do, and no
// process is given the port.
func heldAddress(t *testing.T) string {
	held, err := syscall.Socket(syscall.AF_INET, syscall.SOCK_STREAM|syscall.SOCK_CLOEXEC, 0)
	if err != nil {
		t.Fatal(err)
	}
	t.Cleanup(func() { syscall.Close(held) })
	if err := syscall.SetsockoptInt(held, syscall.SOL_SOCKET, syscall.SO_REUSEADDR, 1); err != nil {
		t.Fatal(err)
	}
	if err := syscall.Bind(held, &syscall.SockaddrInet4{Addr: [4]byte{127, 0, 0, 1}}); err != nil {
		t.Fatal(err)
	}
	bound, err := syscall.Getsockname(held)
	if err != nil {
		t.Fatal(err)
	}
	return fmt.Sprintf("127.0.0.1:%d", bound.(*syscall.SockaddrInet4).Port)
}

// waitUntil waits until something holds.
func waitUntil(t *testing.T, holds func() bool) {
	for begun := time.Now(); !holds(); time.Sleep(time.Millisecond) {
		if time.Since(begun) > limit {
			t.Error("it does not come to hold")
			return
		}
	}
}

func (s *store) start() {
	listener, err := net.Listen("tcp", s.address)
	if err != nil {
		s.t.Fatal(err)
	}
	s.lock.Lock()
	defer s.lock.Unlock()
	s.listener = listener
	go func() {
		for {
			conn, err := listener.Accept()
			if err != nil {
				return
			}
			if s.keep(conn, listener) {
				go s.serve(conn)
			}
		}
	}()
}

// keep notes a connection, which is closed where its listener was stopped meanwhile.
func (s *store) keep(conn net.Conn, listener net.Listener) bool {
	s.lock.Lock()
	defer s.lock.Unlock()
	if s.listener != listener {
		conn.Close()
		return false
	}
	s.conns = append(s.conns, conn)
	return true
}

func (s *store) setAnswer(answer func([]byte) []byte) {
	s.lock.Lock()
	defer s.lock.Unlock()
	s.answer = answer
}

func (s *store) stop() {
	s.lock.Lock()
	if s.listener != nil {
		s.listener.Close()
		s.listener = nil
	}
	s.lock.Unlock()
	s.cut()
}

// cut ends the connections, and goes on to listen.
func (s *store) cut() {
	s.lock.Lock()
	defer s.lock.Unlock()
	for _, conn := range s.conns {
		conn.Close()
	}
	s.conns = nil
}

func (s *store) serve(conn net.Conn) {
	stream := bufio.NewReader(conn)
	for {
		content, err := readContent(stream)
		if err != nil {
			return
		}
		s.lock.Lock()
		if !Kind(content[0]).isCommand() {
			s.lookups++
		} else {
			s.commands = append(s.commands, content)
		}
		answer := s.answer
		s.lock.Unlock()
		if reply := answer(content); reply != nil {
			conn.Write(append(binary.BigEndian.AppendUint32(nil, uint32(len(reply))), reply...))
		}
	}
}

// came answers the commands that have come, and how many lookups and lists have.
func (s *store) came() ([][]byte, int) {
	s.lock.Lock()
	defer s.lock.Unlock()
	return append([][]byte(nil), s.commands...), s.lookups
}

// waitFor waits until this number of commands has come in all.
func (s *store) waitFor(count int) {
	waitUntil(s.t, func() bool { commands, _ := s.came(); return len(commands) >= count })
}

// waitForLookups waits until this number of lookups and lists has come in all.
func (s *store) waitForLookups(count int) {
	waitUntil(s.t, func() bool { _, lookups := s.came(); return lookups >= count })
}
