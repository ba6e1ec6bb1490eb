package pathdb

import (
	"errors"
	"fmt"
	"strings"
	"time"

	"pathd"
)

// ErrConnection is the error of a connection that Open does not know.
var ErrConnection = errors.New("pathdb: no connection to pathd")

const (
	scheme = "pathd://"
	// How long one of several servers may take for a reply before it is away.
	patience = 5 * time.Second
)

// Open answers the database of a connection, as a setting of a control service may have it: pathd:// and
// the address of a server, such as pathd://127.0.0.1:30252, or the addresses of several servers, joined by
// commas. A write to several servers returns once those have acknowledged it that are not away. Where the
// queue of a server that is away has no room, the oldest write that waits for this server is dropped. Nothing
// is connected before it is needed.
func Open(connection string) (*Backend, error) {
	isKnown, list := strings.HasPrefix(connection, scheme), strings.TrimPrefix(connection, scheme)
	addresses := strings.Split(list, ",")
	for _, it := range addresses {
		isKnown = isKnown && it != ""
	}
	if !isKnown {
		return nil, fmt.Errorf("%w: %q", ErrConnection, connection)
	}
	if len(addresses) == 1 {
		return New(pathd.NewClient(addresses[0], pathd.ClientOptions{})), nil
	}
	servers, err := pathd.NewServers(addresses, pathd.Options{Acknowledge: pathd.Present, Drop: true, Timeout: patience})
	if err != nil {
		return nil, err
	}
	return NewOfServers(servers), nil
}
