package pathd

import (
	"context"
	"crypto/tls"
	"net"
	"time"
)

// Dialer makes connections to a server. Its zero value makes them over TCP.
type Dialer struct {
	// The configuration of TLS, for a proxy that ends TLS before a server; nil for none. The server
	// has to have a certificate for the address's host where ServerName is empty.
	TLS *tls.Config
	// Makes a connection [net.Dialer.DialContext]: for a proxy, a tunnel, or another network.
	Connect func(ctx context.Context, network, address string) (net.Conn, error)
	// How long a connection may take to be made, the handshake of TLS among it [5 seconds].
	Timeout time.Duration
}

// DialContext answers a connection with the server at an address, such as 127.0.0.1:30252.
func (d Dialer) DialContext(ctx context.Context, address string) (net.Conn, error) {
	timeout := d.Timeout
	if timeout <= 0 {
		timeout = 5 * time.Second
	}
	ctx, cancel := context.WithTimeout(ctx, timeout)
	defer cancel()
	connect := d.Connect
	if connect == nil {
		connect = new(net.Dialer).DialContext
	}
	conn, err := connect(ctx, "tcp", address)
	if err != nil || d.TLS == nil {
		return conn, err
	}
	return d.secure(ctx, conn, address)
}

func (d Dialer) secure(ctx context.Context, conn net.Conn, address string) (net.Conn, error) {
	config := d.TLS
	if config.ServerName == "" && !config.InsecureSkipVerify {
		host, _, err := net.SplitHostPort(address)
		if err != nil {
			conn.Close()
			return nil, err
		}
		config = config.Clone()
		config.ServerName = host
	}
	secured := tls.Client(conn, config)
	if err := secured.HandshakeContext(ctx); err != nil {
		conn.Close()
		return nil, err
	}
	return secured, nil
}
