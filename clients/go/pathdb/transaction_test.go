package pathdb

import (
	"context"
	"database/sql"
	"errors"
	"fmt"
	"testing"
	"time"

	"pathd"
)

// numbered answers a path that differs by a number.
func numbered(number int) string {
	return fmt.Sprintf("1-ff00:0:110 %d>1 1-%d", number, number)
}

func insertNumbered(t *testing.T, ctx context.Context, db ReadWrite, from, to int) {
	t.Helper()
	for number := from; number <= to; number++ {
		insert(t, ctx, db, TypeDown, numbered(number))
	}
}

func TestCommit(t *testing.T) {
	db, _, ctx := started(t)
	insert(t, ctx, db, TypeUp, one, two)
	tx := begun(t, ctx, db)
	insertNumbered(t, ctx, tx, 1, 40)
	if err := tx.DeleteSegment(ctx, oneID); err != nil {
		t.Error(err)
	}
	finds(t, ctx, tx, &Params{SegTypes: []Type{TypeUp}}, "UP "+two)
	insert(t, ctx, tx, TypeUp, one)
	if got, err := tx.Insert(ctx, meta(t, TypeUp, two, now.Add(time.Second))); err != nil || got != (InsertStats{Updated: 1}) {
		t.Errorf("%v, %v", got, err)
	}
	// Nothing was sent so far.
	if got := db.Numbers(); got.Inserted != 2 || got.Deleted != 0 || got.Updated != 0 {
		t.Errorf("%+v", got)
	}
	if err := tx.Commit(); err != nil {
		t.Fatal(err)
	}
	// UP one was deleted and inserted again.
	if got := db.Numbers(); got.Inserted != 43 || got.Deleted != 1 || got.Updated != 1 || got.Kept != 0 || got.Commits != 1 {
		t.Errorf("%+v", got)
	}
	finds(t, ctx, db, &Params{SegTypes: []Type{TypeUp}}, "UP "+one, "UP "+two)
	if got := all(t, ctx, db); len(got) != 42 {
		t.Errorf("%d segments", len(got))
	}
}

func TestWhatOthersCommitMeanwhile(t *testing.T) {
	db, _, ctx := started(t)
	tx := begun(t, ctx, db)
	insert(t, ctx, tx, TypeUp, one)
	insert(t, ctx, db, TypeUp, two)
	finds(t, ctx, tx, nil, "UP "+one, "UP "+two)
	if got, err := db.Insert(ctx, meta(t, TypeUp, one, now.Add(time.Second))); err != nil || got != (InsertStats{Inserted: 1}) {
		t.Errorf("%v, %v", got, err)
	}
	if err := tx.Commit(); err != nil {
		t.Error(err)
	}
	results, err := db.GetAll(ctx)
	if err != nil || len(results) != 2 {
		t.Fatalf("%v, %v", results, err)
	}
	for _, it := range results { // the newer one stays
		if path := read(t, it).Path.String(); path == one && !it.LastUpdate.Equal(now.Add(time.Second)) {
			t.Errorf("%v", it.LastUpdate)
		}
	}
}

func TestRollback(t *testing.T) {
	db, _, ctx := started(t)
	tx := begun(t, ctx, db)
	insert(t, ctx, tx, TypeUp, one, two)
	ia := ias(t, []string{"1-1", "1-2"})
	if isLater, err := tx.InsertNextQuery(ctx, ia[0], ia[1], now); err != nil || !isLater {
		t.Errorf("%v, %v", isLater, err)
	}
	if err := tx.Rollback(); err != nil {
		t.Error(err)
	}
	finds(t, ctx, db, nil)
	if next, err := db.GetNextQuery(ctx, ia[0], ia[1]); err != nil || !next.IsZero() {
		t.Errorf("%v, %v", next, err)
	}
	if got := db.Numbers(); got.Commits != 0 || got.Inserted != 0 {
		t.Errorf("%+v", got)
	}
}

func TestNextQueriesOfACommit(t *testing.T) {
	db, _, ctx := started(t)
	ia := ias(t, []string{"1-1", "1-2", "1-3"})
	tx := begun(t, ctx, db)
	for _, dst := range ia[1:] {
		if isLater, err := tx.InsertNextQuery(ctx, ia[0], dst, now); err != nil || !isLater {
			t.Errorf("%v, %v", isLater, err)
		}
	}
	later := now.Add(time.Second)
	if isLater, err := db.InsertNextQuery(ctx, ia[0], ia[2], later); err != nil || !isLater {
		t.Errorf("%v, %v", isLater, err)
	}
	if err := tx.Commit(); err != nil {
		t.Error(err)
	}
	for number, wanted := range []time.Time{now, later} {
		if next, err := db.GetNextQuery(ctx, ia[0], ia[1+number]); err != nil || !next.Equal(wanted) {
			t.Errorf("%v, %v", next, err)
		}
	}
}

// callsOf answers the calls that a database and a transaction have.
func callsOf(t *testing.T, ctx context.Context, of ReadWrite) map[string]func() error {
	noted := now.Add(time.Hour)
	calls := map[string]func() error{
		"Get":                  func() error { _, err := of.Get(ctx, &Params{}); return err },
		"GetAll":               func() error { _, err := of.GetAll(ctx); return err },
		"GetNextQuery":         func() error { _, err := of.GetNextQuery(ctx, 1, 2); return err },
		"Insert":               func() error { _, err := of.Insert(ctx, meta(t, TypeUp, one, now)); return err },
		"InsertWithHPGroupIDs": func() error { _, err := of.InsertWithHPGroupIDs(ctx, meta(t, TypeUp, one, now), nil); return err },
		"DeleteExpired":        func() error { _, err := of.DeleteExpired(ctx, now); return err },
		"DeleteSegment":        func() error { return of.DeleteSegment(ctx, "00") },
		"InsertNextQuery":      func() error { _, err := of.InsertNextQuery(ctx, 1, 2, noted); return err },
	}
	return calls
}

func TestTransactionsThatAreOver(t *testing.T) {
	db, _, ctx := started(t)
	for name, end := range map[string]func(Transaction) error{"commit": Transaction.Commit, "rollback": Transaction.Rollback} {
		tx := begun(t, ctx, db)
		if err := end(tx); err != nil {
			t.Errorf("%s: %v", name, err)
		}
		calls := callsOf(t, ctx, tx)
		calls["Commit"], calls["Rollback"] = tx.Commit, tx.Rollback
		for call, carryOut := range calls {
			if err := carryOut(); err != sql.ErrTxDone {
				t.Errorf("%s after %s: %v", call, name, err)
			}
		}
	}
}

func TestReadOnlyTransactions(t *testing.T) {
	db, _, ctx := started(t)
	tx, err := db.BeginTransaction(ctx, &sql.TxOptions{ReadOnly: true})
	if err != nil {
		t.Fatal(err)
	}
	for name, call := range callsOf(t, ctx, tx) {
		wanted := ErrReadOnly
		if name == "Get" || name == "GetAll" || name == "GetNextQuery" {
			wanted = nil
		}
		if err := call(); err != wanted {
			t.Errorf("%s: %v", name, err)
		}
	}
	if err := tx.Commit(); err != nil {
		t.Error(err)
	}
}

func TestIsolation(t *testing.T) {
	db, _, ctx := started(t)
	for level := sql.LevelDefault; level <= sql.LevelLinearizable; level++ {
		_, err := db.BeginTransaction(ctx, &sql.TxOptions{Isolation: level})
		if isKnown := level <= sql.LevelReadCommitted; isKnown != (err == nil) || !isKnown && !errors.Is(err, ErrIsolation) {
			t.Errorf("%v: %v", level, err)
		}
	}
}

// The 20th insertion is refused: the first command of the two stays.
func TestACommitThatEndsBetweenItsCommands(t *testing.T) {
	db, _, ctx := started(t)
	tx := begun(t, ctx, db)
	insertNumbered(t, ctx, tx, 1, 19)
	if _, err := tx.Insert(ctx, meta(t, TypeDown, one, now.Add(-7*time.Hour))); err != nil {
		t.Error(err)
	}
	ia := ias(t, []string{"1-1", "1-2"})
	if _, err := tx.InsertNextQuery(ctx, ia[0], ia[1], now); err != nil {
		t.Error(err)
	}
	err := tx.Commit()
	var fault *CommitError
	if !errors.As(err, &fault) || fault.Done != 1 || fault.Of != 2 || !errors.Is(err, pathd.Expired) {
		t.Errorf("%v", err)
	}
	var wanted []string
	for number := 1; number <= 16; number++ {
		wanted = append(wanted, "DOWN "+numbered(number))
	}
	finds(t, ctx, db, nil, wanted...)
	if next, err := db.GetNextQuery(ctx, ia[0], ia[1]); err != nil || !next.IsZero() {
		t.Errorf("%v, %v", next, err)
	}
	if got := db.Numbers(); got.Commits != 1 || got.FailedCommits != 1 || got.Inserted != 16 {
		t.Errorf("%+v", got)
	}
}

// A registration has 16 segments at most, and 131,072 bytes: room for eight of the large ones.
func TestCommandsOfACommit(t *testing.T) {
	db, _, ctx := started(t)
	var writes []write
	for number := 1; number <= 35; number++ {
		it := meta(t, TypeDown, numbered(number), now)
		if number >= 18 {
			it.Segment.AsEntries[0].Signed.Signature = make([]byte, 16000)
		}
		read, err := newRow(it.Type, it.Segment)
		if err != nil {
			t.Fatal(err)
		}
		writes = append(writes, insertion{read})
		if number == 3 {
			writes = append(writes, removal{read.key}, removal{key{TypeUp, read.id}})
		}
	}
	// How many segments there are after each command.
	wanted := []uint64{3, 2, 2, 18, 26, 34}
	commands := commandsOf(writes)
	if len(commands) != len(wanted) {
		t.Fatalf("%d commands", len(commands))
	}
	for number, it := range commands {
		if err := it(ctx, db); err != nil {
			t.Fatal(err)
		}
		if got := db.Numbers(); got.Inserted-got.Deleted != wanted[number] {
			t.Errorf("command %d: %+v", number, got)
		}
	}
}
