package tests

import (
	"fmt"
	"syscall"
	"testing"

	pki "pathd/gateway/internal/testpki"
)

// heldAddress answers an address of the loopback whose port is bound by a socket that doesn't listen,
// as long as the test goes on: a pathd may listen there again and again, as it has SO_REUSEADDR, and no
// other process is given the port.
func heldAddress(t *testing.T) string {
	t.Helper()
	held, err := syscall.Socket(syscall.AF_INET, syscall.SOCK_STREAM|syscall.SOCK_CLOEXEC, 0)
	pki.Must(t, err)
	t.Cleanup(func() { syscall.Close(held) })
	pki.Must(t, syscall.SetsockoptInt(held, syscall.SOL_SOCKET, syscall.SO_REUSEADDR, 1))
	pki.Must(t, syscall.Bind(held, &syscall.SockaddrInet4{Addr: [4]byte{127, 0, 0, 1}}))
	bound, err := syscall.Getsockname(held)
	pki.Must(t, err)
	return fmt.Sprintf("127.0.0.1:%d", bound.(*syscall.SockaddrInet4).Port)
}
