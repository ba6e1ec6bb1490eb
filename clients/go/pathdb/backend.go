package pathdb

import (
	"context"
	"database/sql"
	"errors"
	"fmt"
	"time"

	"pathd"
)

var (
	// ErrGroup is the error of a segment that is in another group than NullHPGroupID.
	ErrGroup = errors.New("pathdb: there are no groups of hidden paths")
	// ErrIsolation is the error of a transaction above sql.LevelReadCommitted.
	ErrIsolation = errors.New("pathdb: no such isolation of a transaction")
)

// Backend is a DB whose segments a pathd server keeps, or several. Any number of goroutines may use it. Its
// next queries are in the memory of the process.
//
// A read that takes several pages is no snapshot: a segment that is inserted or deleted meanwhile may be
// among the results or not, and every other one comes once.
type Backend struct {
	server  server
	queries nextQueries
	counts  counts
}

var _ DB = (*Backend)(nil)

// New answers the database of a client's server. Close closes the client.
func New(client *pathd.Client) *Backend {
	return &Backend{server: oneServer{client}}
}

// NewOfServers answers the database of several servers, which get the same writes. A read asks one of them.
// A call that changes segments returns once as many servers have acknowledged it as Options.Acknowledge
// says, with what the first of them in the list has counted. Close closes the servers.
func NewOfServers(servers *pathd.Servers) *Backend {
	return &Backend{server: severalServers{servers}}
}

// Close ends the sessions, and the calls that are under way by pathd.ErrClosed. So do later calls end that
// need a server.
func (b *Backend) Close() error {
	b.server.Close()
	return nil
}

// Get answers the segments that Params ask for and that are valid now; all of them where Params are nil. It
// asks for a list of each type, each pair of a start and an end, and each id.
func (b *Backend) Get(ctx context.Context, params *Params) (Results, error) {
	f, err := newFilter(params)
	if err != nil {
		return nil, b.counts.reads.note(err)
	}
	found, err := b.find(ctx, f)
	if b.counts.reads.note(err) != nil {
		return nil, err
	}
	return f.results(found), nil
}

// GetAll answers all segments that are valid now.
func (b *Backend) GetAll(ctx context.Context) (Results, error) {
	return b.Get(ctx, nil)
}

// Insert registers a segment. The statistics are the server's.
func (b *Backend) Insert(ctx context.Context, meta *Meta) (InsertStats, error) {
	ack, err := b.register(ctx, []Meta{*meta})
	if b.counts.writes.note(err) != nil {
		return InsertStats{}, err
	}
	return InsertStats{int(ack.Inserted), int(ack.Updated)}, nil
}

// InsertWithHPGroupIDs does what Insert does. Another group than NullHPGroupID is an ErrGroup.
func (b *Backend) InsertWithHPGroupIDs(ctx context.Context, meta *Meta, groups []uint64) (InsertStats, error) {
	if err := checkGroups(groups); err != nil {
		return InsertStats{}, b.counts.writes.note(err)
	}
	return b.Insert(ctx, meta)
}

func checkGroups(groups []uint64) error {
	for _, it := range groups {
		if it != NullHPGroupID {
			return fmt.Errorf("%w: %d", ErrGroup, it)
		}
	}
	return nil
}

// DeleteExpired purges in steps, and answers how many segments expired before a time. After an error some
// may have been deleted: it answers how many of them it knows of.
func (b *Backend) DeleteExpired(ctx context.Context, now time.Time) (int, error) {
	deleted, err := b.purge(ctx, now)
	return deleted, b.counts.writes.note(err)
}

// DeleteSegment lists the segments whose ids begin with a text, and removes each of them. After an error
// some may have been removed.
func (b *Backend) DeleteSegment(ctx context.Context, partialID string) error {
	return b.counts.writes.note(b.deleteSegment(ctx, partialID))
}

func (b *Backend) deleteSegment(ctx context.Context, partialID string) error {
	f, err := ofText(partialID)
	if err != nil {
		return err
	}
	found, err := b.find(ctx, f)
	if err != nil {
		return err
	}
	for _, it := range found.keys() {
		if err := b.remove(ctx, it); err != nil {
			return err
		}
	}
	return nil
}

// InsertNextQuery notes a time in memory, as the interface says.
func (b *Backend) InsertNextQuery(ctx context.Context, src, dst IA, nextQuery time.Time) (bool, error) {
	if err := b.counts.writes.note(ctx.Err()); err != nil {
		return false, err
	}
	return b.queries.put(pair{src, dst}, nextQuery), nil
}

// GetNextQuery answers the time that is noted.
func (b *Backend) GetNextQuery(ctx context.Context, src, dst IA) (time.Time, error) {
	if err := b.counts.reads.note(ctx.Err()); err != nil {
		return time.Time{}, err
	}
	return b.queries.get(pair{src, dst}), nil
}

// BeginTransaction answers a transaction, which ends with its context where it is not over before: then
// Commit sends nothing. It is at sql.LevelReadCommitted or below: a read sees what others have committed.
func (b *Backend) BeginTransaction(ctx context.Context, opts *sql.TxOptions) (Transaction, error) {
	if opts == nil {
		opts = new(sql.TxOptions)
	}
	if opts.Isolation > sql.LevelReadCommitted {
		return nil, fmt.Errorf("%w: %s", ErrIsolation, opts.Isolation)
	}
	if err := ctx.Err(); err != nil {
		return nil, err
	}
	return &transaction{backend: b, ctx: ctx, readOnly: opts.ReadOnly, queries: map[pair]time.Time{}}, nil
}
