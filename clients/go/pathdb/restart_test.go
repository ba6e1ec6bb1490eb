package pathdb

import (
	"context"
	"errors"
	"sync"
	"sync/atomic"
	"testing"
	"time"

	"pathd"
	"pathd/internal/testpathd"
)

func TestAServerThatIsStartedAgain(t *testing.T) {
	db, server, ctx := started(t)
	insert(t, ctx, db, TypeUp, one)
	tx := begun(t, ctx, db)
	insert(t, ctx, tx, TypeDown, two)
	server.Kill()
	short, cancel := context.WithTimeout(ctx, 50*time.Millisecond)
	defer cancel()
	var ended *pathd.SessionError
	if _, err := db.GetAll(short); !errors.As(err, &ended) && !errors.Is(err, context.DeadlineExceeded) {
		t.Error(err)
	}
	server.Restart()
	finds(t, ctx, db, nil, "UP "+one)
	finds(t, ctx, tx, nil, "UP "+one, "DOWN "+two)
	server.Kill()
	server.Restart()
	if err := tx.Commit(); err != nil {
		t.Error(err)
	}
	finds(t, ctx, db, nil, "UP "+one, "DOWN "+two)
}

// load is goroutines that insert, every other time in a transaction, and look up.
type load struct {
	all           sync.WaitGroup
	end           atomic.Bool
	inserted      [4]int // by each goroutine
	writes, reads atomic.Int64
}

// begin has each of the goroutines insert segments of its own, and others read. The segment `one` is there
// all the time.
func (l *load) begin(t *testing.T, ctx context.Context, db *Backend) {
	t.Cleanup(func() { l.wait() })
	for number := range l.inserted {
		l.all.Add(2)
		go func(number int) {
			defer l.all.Done()
			for ; !l.end.Load(); l.inserted[number]++ {
				path := numbered(10_000*(number+1) + l.inserted[number])
				if err := l.insert(ctx, db, meta(t, TypeDown, path, now), l.inserted[number]%2 == 1); err != nil {
					t.Errorf("%s: %v", path, err)
					return
				}
				l.writes.Add(1)
			}
		}(number)
		go func() {
			defer l.all.Done()
			for !l.end.Load() {
				results, err := db.Get(ctx, &Params{SegTypes: []Type{TypeUp}})
				if err != nil || len(results) != 1 {
					t.Errorf("%v, %v", results, err)
					return
				}
				l.reads.Add(1)
			}
		}()
	}
}

func (l *load) insert(ctx context.Context, db *Backend, it *Meta, inTransaction bool) error {
	if !inTransaction {
		_, err := db.Insert(ctx, it)
		return err
	}
	tx, err := db.BeginTransaction(ctx, nil)
	if err != nil {
		return err
	}
	if _, err := tx.Insert(ctx, it); err != nil {
		return err
	}
	return tx.Commit()
}

// wait ends the load, and answers the paths that were inserted, `one` among them.
func (l *load) wait() []string {
	l.end.Store(true)
	l.all.Wait()
	paths := []string{"UP " + one}
	for number, count := range l.inserted {
		for turn := 0; turn < count; turn++ {
			paths = append(paths, "DOWN "+numbered(10_000*(number+1)+turn))
		}
	}
	return paths
}

// moves waits until the load has gone on.
func (l *load) moves(t *testing.T) {
	t.Helper()
	reads, writes := l.reads.Load(), l.writes.Load()
	waitUntil(t, func() bool { return l.reads.Load() >= reads+20 && l.writes.Load() >= writes+20 })
}

func waitUntil(t *testing.T, holds func() bool) {
	t.Helper()
	for begun := time.Now(); !holds(); time.Sleep(time.Millisecond) {
		if time.Since(begun) > limit || t.Failed() {
			t.Error("it does not come to hold")
			return
		}
	}
}

// killInTurn kills each server under a load, has it away for a while, and starts it again.
func killInTurn(t *testing.T, l *load, again func(), servers ...*testpathd.Server) {
	for turn := 0; turn < 2; turn++ {
		for _, it := range servers {
			l.moves(t)
			it.Kill()
			if len(servers) > 1 {
				l.moves(t)
			}
			it.Restart()
			again()
		}
	}
	l.moves(t)
}

func TestAServerThatIsKilledUnderLoad(t *testing.T) {
	db, server, ctx := started(t)
	insert(t, ctx, db, TypeUp, one)
	l := new(load)
	l.begin(t, ctx, db)
	killInTurn(t, l, func() {}, server)
	finds(t, ctx, db, nil, l.wait()...)
}

// What one server has acknowledged the other one gets, too: at the end both have all segments.
func TestServersThatAreKilledInTurnUnderLoad(t *testing.T) {
	first, second := newServer(t), newServer(t)
	servers, err := pathd.NewServers([]string{first.Address, second.Address}, pathd.Options{Acknowledge: pathd.Present})
	if err != nil {
		t.Fatal(err)
	}
	db, ctx := NewOfServers(servers), limited(t)
	t.Cleanup(func() { db.Close() })
	insert(t, ctx, db, TypeUp, one)
	l := new(load)
	l.begin(t, ctx, db)
	isBack := func() {
		waitUntil(t, func() bool {
			states := servers.States()
			return states[0].Err == nil && states[1].Err == nil
		})
	}
	killInTurn(t, l, isBack, first, second)
	wanted := l.wait()
	if err := servers.Drain(ctx); err != nil {
		t.Error(err)
	}
	for _, it := range []*testpathd.Server{first, second} {
		alone := New(pathd.NewClient(it.Address, pathd.ClientOptions{}))
		finds(t, ctx, alone, nil, wanted...)
		alone.Close()
	}
}

func TestWhatIsSaidOfAServerThatIsAway(t *testing.T) {
	up, away := newServer(t), newServer(t)
	servers, err := pathd.NewServers([]string{away.Address, up.Address}, pathd.Options{Acknowledge: pathd.Present})
	if err != nil {
		t.Fatal(err)
	}
	db, ctx := NewOfServers(servers), limited(t)
	t.Cleanup(func() { db.Close() })
	away.Kill()
	insert(t, ctx, db, TypeUp, one, two)
	finds(t, ctx, db, nil, "UP "+one, "UP "+two)
	if state := servers.States()[0]; state.Address != away.Address || state.Waiting != 2 || state.Err == nil {
		t.Errorf("%+v", state)
	}
	if _, err := db.Insert(ctx, meta(t, TypeUp, one, now.Add(-7*time.Hour))); !errors.Is(err, pathd.Expired) {
		t.Error(err) // the other one is not waited for
	}
	away.Restart()
	if err := servers.Drain(ctx); err != nil {
		t.Error(err)
	}
	if state := servers.States()[0]; state.Waiting != 0 || state.Err != nil {
		t.Errorf("%+v", state)
	}
	up.Kill()
	finds(t, ctx, db, nil, "UP "+one, "UP "+two)
	if n, err := db.DeleteExpired(ctx, now.Add(7*time.Hour)); err != nil || n != 2 {
		t.Errorf("%d, %v", n, err)
	}
	finds(t, ctx, db, nil)
}
