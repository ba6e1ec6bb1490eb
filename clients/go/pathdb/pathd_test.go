package pathdb

import (
	"context"
	"testing"
	"time"

	"pathd"
	"pathd/internal/testpathd"
)

// limit is how long a test may take, on a machine whose device others keep busy.
const limit = 4 * time.Minute

func limited(t testing.TB) context.Context {
	ctx, cancel := context.WithTimeout(context.Background(), limit)
	t.Cleanup(cancel)
	return ctx
}

// newServer starts a server with room for a megabyte of segments.
func newServer(t testing.TB) *testpathd.Server {
	return testpathd.Start(t, "2048", "4096")
}

// attempts are so many that a server may take ten seconds to be started again.
const attempts = 12

// started answers the database of a new server.
func started(t testing.TB) (*Backend, *testpathd.Server, context.Context) {
	server := newServer(t)
	db := New(pathd.NewClient(server.Address, pathd.ClientOptions{Attempts: attempts}))
	t.Cleanup(func() { db.Close() })
	return db, server, limited(t)
}

func begun(t testing.TB, ctx context.Context, db DB) Transaction {
	t.Helper()
	tx, err := db.BeginTransaction(ctx, nil)
	if err != nil {
		t.Fatal(err)
	}
	return tx
}
