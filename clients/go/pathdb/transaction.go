package pathdb

import (
	"context"
	"database/sql"
	"errors"
	"fmt"
	"sync"
	"time"
)

// ErrReadOnly is the error of a write in a transaction that was begun with sql.TxOptions.ReadOnly.
var ErrReadOnly = errors.New("pathdb: the transaction is read-only")

// CommitError is the error of a commit: how many of its commands were acknowledged, which are its first
// ones, and the error of the next one. That one may have been carried out, purges in steps in part, where
// Err has a *pathd.SessionError with Sent, the error of a context, or a pathd.Code that IsUnsettled. The
// others were not sent.
type CommitError struct {
	Done, Of int
	Err      error
}

// Error says how many commands were acknowledged, and what went wrong.
func (e *CommitError) Error() string {
	return fmt.Sprintf("pathdb: commit: %d of %d commands: %v", e.Done, e.Of, e.Err)
}

// Unwrap answers what went wrong.
func (e *CommitError) Unwrap() error {
	return e.Err
}

// transaction notes its writes. One call is carried out after the other.
type transaction struct {
	backend  *Backend
	ctx      context.Context
	readOnly bool

	lock    sync.Mutex
	isOver  bool
	writes  []write
	queries map[pair]time.Time // those that are later than what was noted before
}

// check answers why a call is refused. The lock is held.
func (t *transaction) check(ctx context.Context, writes bool) error {
	switch {
	case t.isOver:
		return sql.ErrTxDone
	case t.ctx.Err() != nil:
		return t.ctx.Err()
	case writes && t.readOnly:
		return ErrReadOnly
	}
	return ctx.Err()
}

// find answers the segments that are asked for after the writes so far. The lock is held.
func (t *transaction) find(ctx context.Context, f filter) (rows, error) {
	found, err := t.backend.find(ctx, f)
	if err != nil {
		return nil, err
	}
	for _, it := range t.writes {
		it.apply(f, found)
	}
	return found, nil
}

// reading carries a read out.
func (t *transaction) reading(ctx context.Context, read func() error) error {
	return t.backend.counts.reads.note(t.inTurn(ctx, false, read))
}

// writing carries a write out, which only notes what is to be sent.
func (t *transaction) writing(ctx context.Context, write func() error) error {
	return t.backend.counts.writes.note(t.inTurn(ctx, true, write))
}

func (t *transaction) inTurn(ctx context.Context, writes bool, call func() error) error {
	t.lock.Lock()
	defer t.lock.Unlock()
	if err := t.check(ctx, writes); err != nil {
		return err
	}
	return call()
}

// Get answers what Backend.Get does, after the writes so far.
func (t *transaction) Get(ctx context.Context, params *Params) (results Results, err error) {
	err = t.reading(ctx, func() error {
		f, err := newFilter(params)
		if err != nil {
			return err
		}
		found, err := t.find(ctx, f)
		if err == nil {
			results = f.results(found)
		}
		return err
	})
	return results, err
}

// GetAll answers all segments, after the writes so far.
func (t *transaction) GetAll(ctx context.Context) (Results, error) {
	return t.Get(ctx, nil)
}

// Insert asks the server for the segment of the same key, and answers what the insertion does to it and to
// the writes so far. What does nothing is not sent.
func (t *transaction) Insert(ctx context.Context, meta *Meta) (stats InsertStats, err error) {
	err = t.writing(ctx, func() error {
		it, err := newRow(meta.Type, meta.Segment)
		if err != nil {
			return err
		}
		found, err := t.find(ctx, ofKey(it))
		if err != nil {
			return err
		}
		if stats = found.put(it); stats != (InsertStats{}) {
			t.writes = append(t.writes, insertion{it})
		}
		return nil
	})
	return stats, err
}

// InsertWithHPGroupIDs does what Insert does. Another group than NullHPGroupID is an ErrGroup.
func (t *transaction) InsertWithHPGroupIDs(ctx context.Context, meta *Meta, groups []uint64) (InsertStats, error) {
	if err := checkGroups(groups); err != nil {
		return InsertStats{}, t.backend.counts.writes.note(err)
	}
	return t.Insert(ctx, meta)
}

// DeleteExpired answers how many of the segments that the transaction sees expire before a time. The commit
// also deletes those that have expired by the server's clock, which no read sees.
func (t *transaction) DeleteExpired(ctx context.Context, now time.Time) (deleted int, err error) {
	err = t.writing(ctx, func() error {
		f, err := newFilter(nil)
		if err != nil {
			return err
		}
		found, err := t.find(ctx, f)
		if err != nil {
			return err
		}
		deleted = len(found)
		expired := expiry{now}
		expired.apply(f, found)
		deleted -= len(found)
		t.writes = append(t.writes, expired)
		return nil
	})
	return deleted, err
}

// DeleteSegment deletes the segments that the transaction sees whose ids begin with a text.
func (t *transaction) DeleteSegment(ctx context.Context, partialID string) error {
	return t.writing(ctx, func() error {
		f, err := ofText(partialID)
		if err != nil {
			return err
		}
		found, err := t.find(ctx, f)
		for _, it := range found.keys() {
			t.writes = append(t.writes, removal{it})
		}
		return err
	})
}

// InsertNextQuery notes a time for the commit.
func (t *transaction) InsertNextQuery(ctx context.Context, src, dst IA, nextQuery time.Time) (isLater bool, err error) {
	err = t.writing(ctx, func() error {
		noted := t.nextQuery(pair{src, dst})
		if isLater = isNews(noted, nextQuery); isLater {
			t.queries[pair{src, dst}] = nextQuery
		}
		return nil
	})
	return isLater, err
}

// GetNextQuery answers the time that was noted in the transaction or before.
func (t *transaction) GetNextQuery(ctx context.Context, src, dst IA) (next time.Time, err error) {
	err = t.reading(ctx, func() error {
		next = t.nextQuery(pair{src, dst})
		return nil
	})
	return next, err
}

// nextQuery answers the time that is noted. The lock is held.
func (t *transaction) nextQuery(of pair) time.Time {
	if own, isNoted := t.queries[of]; isNoted {
		return own
	}
	return t.backend.queries.get(of)
}

// Commit sends the writes in their order: up to 16 insertions that follow one another are one command, which
// is carried out as a whole or not at all. It returns once all are acknowledged. An error is a *CommitError,
// but for sql.ErrTxDone. The transaction is over in any case.
func (t *transaction) Commit() error {
	t.lock.Lock()
	defer t.lock.Unlock()
	if t.isOver {
		return sql.ErrTxDone
	}
	t.isOver = true
	if err := t.backend.counts.commits.note(t.send()); err != nil {
		return err
	}
	for of, next := range t.queries {
		t.backend.queries.put(of, next)
	}
	return nil
}

func (t *transaction) send() error {
	commands := commandsOf(t.writes)
	if err := t.ctx.Err(); err != nil {
		return &CommitError{0, len(commands), err}
	}
	for number, it := range commands {
		if err := it(t.ctx, t.backend); err != nil {
			return &CommitError{number, len(commands), err}
		}
	}
	return nil
}

// Rollback drops the writes. After Commit it is sql.ErrTxDone, and does nothing.
func (t *transaction) Rollback() error {
	t.lock.Lock()
	defer t.lock.Unlock()
	if t.isOver {
		return sql.ErrTxDone
	}
	t.isOver = true
	return nil
}
