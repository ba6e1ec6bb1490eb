package pathdb

import (
	"context"
	"errors"
	"net"
	"testing"
	"time"

	"pathd"
)

func TestContextsThatHaveEnded(t *testing.T) {
	db, _, ctx := started(t)
	tx := begun(t, ctx, db)
	ended, cancel := context.WithCancel(ctx)
	cancel()
	for what, of := range map[string]ReadWrite{"database": db, "transaction": tx} {
		for name, call := range callsOf(t, ended, of) {
			if err := call(); err != context.Canceled {
				t.Errorf("%s of a %s: %v", name, what, err)
			}
		}
	}
	if _, err := db.BeginTransaction(ended, nil); err != context.Canceled {
		t.Error(err)
	}
	finds(t, ctx, tx, nil)
	if got := db.Numbers(); got.FailedReads != 6 || got.FailedWrites != 10 || got.Writes != 10 {
		t.Errorf("%+v", got)
	}
}

func TestATransactionEndsWithItsContext(t *testing.T) {
	db, _, ctx := started(t)
	short, cancel := context.WithCancel(ctx)
	tx := begun(t, short, db)
	insert(t, ctx, tx, TypeUp, one)
	cancel()
	for name, call := range callsOf(t, ctx, tx) {
		if err := call(); err != context.Canceled {
			t.Errorf("%s: %v", name, err)
		}
	}
	err := tx.Commit()
	var fault *CommitError
	if !errors.As(err, &fault) || fault.Done != 0 || fault.Of != 1 || !errors.Is(err, context.Canceled) {
		t.Error(err)
	}
	finds(t, ctx, db, nil)
}

// silent answers the address of a server that takes connections, and answers nothing.
func silent(t *testing.T) string {
	listener, err := net.Listen("tcp", "127.0.0.1:0")
	if err != nil {
		t.Fatal(err)
	}
	t.Cleanup(func() { listener.Close() })
	go func() {
		for {
			conn, err := listener.Accept()
			if err != nil {
				return
			}
			t.Cleanup(func() { conn.Close() })
		}
	}()
	return listener.Addr().String()
}

func TestDeadlines(t *testing.T) {
	address := silent(t)
	servers, err := pathd.NewServers([]string{address, address}, pathd.Options{})
	if err != nil {
		t.Fatal(err)
	}
	for what, db := range map[string]*Backend{
		"one server": New(pathd.NewClient(address, pathd.ClientOptions{})), "two servers": NewOfServers(servers),
	} {
		defer db.Close()
		for _, name := range []string{"Get", "GetAll", "Insert", "InsertWithHPGroupIDs", "DeleteExpired", "DeleteSegment"} {
			ctx, cancel := context.WithTimeout(context.Background(), 50*time.Millisecond)
			begun := time.Now()
			if err := callsOf(t, ctx, db)[name](); !errors.Is(err, context.DeadlineExceeded) {
				t.Errorf("%s with %s: %v", name, what, err)
			}
			if took := time.Since(begun); took > 10*time.Second {
				t.Errorf("%s with %s took %v", name, what, took)
			}
			cancel()
		}
	}
}

func TestClose(t *testing.T) {
	db, _, ctx := started(t)
	insert(t, ctx, db, TypeUp, one)
	if err := db.Close(); err != nil {
		t.Error(err)
	}
	for name, call := range callsOf(t, ctx, db) {
		if name == "GetNextQuery" || name == "InsertNextQuery" {
			continue
		}
		if err := call(); !errors.Is(err, pathd.ErrClosed) {
			t.Errorf("%s: %v", name, err)
		}
	}
	if err := db.Close(); err != nil {
		t.Error(err)
	}
}
