// Package notify tells systemd how a service is, by sd_notify(3).
package notify

import (
	"fmt"
	"net"
	"os"
)

// Send sends a line such as READY=1. It does nothing where no socket was given.
func Send(line string) error {
	path := os.Getenv("NOTIFY_SOCKET")
	if path == "" {
		return nil
	}
	if path[0] == '@' {
		path = "\x00" + path[1:]
	}
	conn, err := net.DialUnix("unixgram", nil, &net.UnixAddr{Name: path, Net: "unixgram"})
	if err != nil {
		return fmt.Errorf("sd_notify: %w", err)
	}
	defer conn.Close()
	if _, err := conn.Write([]byte(line)); err != nil {
		return fmt.Errorf("sd_notify: %w", err)
	}
	return nil
}
