package upstream

import (
	"bytes"
	"context"
	"encoding/binary"
	"io"
	"net"
	"sync"
	"testing"
	"time"

	"pathd"
)

// played is a pathd that acknowledges each command, and finds nothing.
type played struct {
	net.Listener
	lock  sync.Mutex
	kinds []byte // of the requests that came
}

func play(t *testing.T) *played {
	listener, err := net.Listen("tcp", "127.0.0.1:0")
	if err != nil {
		t.Fatal(err)
	}
	t.Cleanup(func() { listener.Close() })
	p := &played{Listener: listener}
	go func() {
		for {
			conn, err := listener.Accept()
			if err != nil {
				return
			}
			go p.serve(conn)
		}
	}()
	return p
}

func (p *played) serve(conn net.Conn) {
	defer conn.Close()
	for {
		var length uint32
		if binary.Read(conn, binary.BigEndian, &length) != nil {
			return
		}
		content := make([]byte, length)
		if _, err := io.ReadFull(conn, content); err != nil {
			return
		}
		p.lock.Lock()
		p.kinds = append(p.kinds, content[0])
		p.lock.Unlock()
		reply := []byte{0x80 | content[0]}
		if kind := pathd.Kind(content[0]); kind != pathd.KindLookup && kind != pathd.KindList {
			reply = append(reply, make([]byte, 24)...)
		}
		conn.Write(append(binary.BigEndian.AppendUint32(nil, uint32(len(reply))), reply...))
	}
}

// came answers the kinds of the requests that have come since it was called last.
func (p *played) came() []byte {
	p.lock.Lock()
	defer p.lock.Unlock()
	kinds := p.kinds
	p.kinds = nil
	return kinds
}

// TestCommandsGoToAllServers has each command, removals among them, go to both servers, and all else to one.
func TestCommandsGoToAllServers(t *testing.T) {
	one, other := play(t), play(t)
	servers, err := New(Options{
		Addresses: []string{one.Addr().String(), other.Addr().String()}, Lookups: 1, Registrations: 1, Window: 8, Deadline: time.Minute,
	})
	if err != nil {
		t.Fatal(err)
	}
	t.Cleanup(servers.Close)
	for kind, isForAll := range map[pathd.Kind]bool{
		pathd.KindRegister: true, pathd.KindPurge: true, pathd.KindRemove: true, pathd.KindLookup: false, pathd.KindList: false,
	} {
		reply, err := servers.Ask(context.Background(), kind, nil)
		wanted := 0
		if isForAll {
			wanted = 24
		}
		if err != nil || len(reply) != wanted {
			t.Errorf("%d: %x, %v", kind, reply, err)
		}
		ofOne, ofOther := one.came(), other.came()
		if !bytes.Equal(ofOne, []byte{byte(kind)}) || isForAll != bytes.Equal(ofOther, ofOne) {
			t.Errorf("%d: %x and %x", kind, ofOne, ofOther)
		}
	}
	_, commands, _ := servers.Numbers()
	if commands.Open != 2 || len(servers.States()) != 2 || len(servers.Each()) != 2 {
		t.Errorf("%+v, %v", commands, servers.States())
	}
}
