package pathdb

import (
	"context"
	"fmt"
	"sync"
	"testing"
	"time"
)

// Each goroutine has segments of its own, and one that all of them renew.
func TestManyGoroutines(t *testing.T) {
	db, _, ctx := started(t)
	const goroutines, turns = 16, 12
	var all sync.WaitGroup
	for number := 1; number <= goroutines; number++ {
		all.Add(1)
		go func(number int) {
			defer all.Done()
			for turn := 1; turn <= turns; turn++ {
				takeTurn(t, ctx, db, number, turn)
			}
		}(number)
	}
	all.Wait()
	results, err := db.GetAll(ctx)
	if err != nil || len(results) != 1+goroutines*turns {
		t.Fatalf("%d segments, %v", len(results), err)
	}
	at := now.Add(turns * time.Second)
	finds(t, ctx, db, &Params{StartsAt: ias(t, []string{"1-ff00:0:110"}), MinLastUpdate: ptr(at.Add(-1))}, "UP "+one)
	next, err := db.GetNextQuery(ctx, 1, 2)
	if err != nil || !next.Equal(at) {
		t.Errorf("%v, %v", next, err)
	}
	// Of the shared segment one was inserted and each turn updated it once at most.
	if got := db.Numbers(); got.Inserted != 1+goroutines*turns || got.Updated >= turns || got.FailedReads+got.FailedWrites+got.FailedCommits != 0 {
		t.Errorf("%+v", got)
	}
}

func ptr(at time.Time) *time.Time { return &at }

func takeTurn(t *testing.T, ctx context.Context, db *Backend, number, turn int) {
	own := fmt.Sprintf("2-%d %d>1 2-1000", number, turn)
	at := now.Add(time.Duration(turn) * time.Second)
	tx, err := db.BeginTransaction(ctx, nil)
	if err != nil {
		t.Error(err)
		return
	}
	if got, err := tx.Insert(ctx, meta(t, TypeCore, own, now)); err != nil || got != (InsertStats{Inserted: 1}) {
		t.Errorf("%s: %v, %v", own, got, err)
	}
	if err := tx.Commit(); err != nil {
		t.Error(err)
	}
	if _, err := db.Insert(ctx, meta(t, TypeUp, one, at)); err != nil {
		t.Error(err)
	}
	if _, err := db.InsertNextQuery(ctx, 1, 2, at); err != nil {
		t.Error(err)
	}
	results, err := db.Get(ctx, &Params{StartsAt: []IA{2<<48 | IA(number)}})
	if err != nil || len(results) != turn {
		t.Errorf("goroutine %d finds %d segments in turn %d, %v", number, len(results), turn, err)
	}
}
