package pathdb

import (
	"context"
	"errors"
	"testing"
	"time"

	"pathd"
)

func TestOpen(t *testing.T) {
	one, other := newServer(t), newServer(t)
	ctx := limited(t)
	for _, connection := range []string{"pathd://" + one.Address, "pathd://" + other.Address + "," + one.Address} {
		db, err := Open(connection)
		if err != nil {
			t.Fatal(err)
		}
		if _, err := db.Insert(ctx, meta(t, TypeUp, two, now)); err != nil {
			t.Error(err)
		}
		finds(t, ctx, db, nil, "UP "+two)
		if _, err := db.Insert(ctx, meta(t, TypeUp, three, now.Add(-7*time.Hour))); !errors.Is(err, pathd.Expired) {
			t.Error(err)
		}
		db.Close()
	}
	for _, wrong := range []string{"", "pathd://", "pathd:127.0.0.1:1", "/var/lib/path.db", "pathd://127.0.0.1:1,", "pathd://,127.0.0.1:1"} {
		if _, err := Open(wrong); !errors.Is(err, ErrConnection) {
			t.Errorf("%q: %v", wrong, err)
		}
	}
}

// A write waits for a server that is not away, although the other one has acknowledged it.
func TestAWriteWaitsForBoth(t *testing.T) {
	server := newServer(t)
	db, err := Open("pathd://" + server.Address + "," + silent(t))
	if err != nil {
		t.Fatal(err)
	}
	t.Cleanup(func() { db.Close() })
	ctx, cancel := context.WithCancel(limited(t))
	go func() { // the first queue has nothing before the write, and after the acknowledgement
		states := db.server.(severalServers).States
		waitUntil(t, func() bool { return states()[1].Waiting == 1 && states()[0].Waiting == 0 })
		cancel()
	}()
	var few *pathd.NotAcknowledged
	if _, err := db.Insert(ctx, meta(t, TypeUp, two, now)); !errors.As(err, &few) || !errors.Is(err, context.Canceled) {
		t.Fatal(err)
	}
	if few.Results[0].Err != nil || few.Results[1].Err != pathd.ErrWaiting {
		t.Errorf("%v", few.Results)
	}
}
