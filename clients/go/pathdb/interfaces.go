package pathdb

import (
	"context"
	"database/sql"
	"io"
	"time"
)

// Read has the methods that change nothing.
type Read interface {
	// Get answers the segments that Params ask for and that are valid now; all of them where Params are
	// nil.
	Get(ctx context.Context, params *Params) (Results, error)
	// GetAll answers all segments that are valid now.
	GetAll(ctx context.Context) (Results, error)
	// GetNextQuery answers when segments from a source to a destination are to be asked for again; the zero
	// time where nothing was said of them.
	GetNextQuery(ctx context.Context, src, dst IA) (time.Time, error)
}

// Write has the methods that change something.
type Write interface {
	// Insert inserts a segment, or has it replace that of its type and hops where its timestamp is later.
	// Otherwise nothing changes, and the statistics are 0.
	Insert(ctx context.Context, meta *Meta) (InsertStats, error)
	// InsertWithHPGroupIDs inserts a segment that is in groups of hidden paths: in NullHPGroupID, or none is
	// given. Another group is an ErrGroup.
	InsertWithHPGroupIDs(ctx context.Context, meta *Meta, groups []uint64) (InsertStats, error)
	// DeleteExpired deletes the segments that expire before a time, and answers how many there were.
	DeleteExpired(ctx context.Context, now time.Time) (int, error)
	// DeleteSegment deletes the segments whose id in hexadecimal digits begins with a text, which has at
	// least one digit: else it is an ErrID. That there is none is no error.
	DeleteSegment(ctx context.Context, partialID string) error
	// InsertNextQuery notes when segments from a source to a destination are to be asked for again. It
	// answers whether that is later than what was noted before; else nothing changes.
	InsertNextQuery(ctx context.Context, src, dst IA, nextQuery time.Time) (bool, error)
}

// ReadWrite has both.
type ReadWrite interface {
	Read
	Write
}

// Transaction has writes that are sent by Commit alone, and dropped by Rollback. Its reads see them.
type Transaction interface {
	ReadWrite
	Commit() error
	Rollback() error
}

// DB is a path database.
type DB interface {
	ReadWrite
	BeginTransaction(ctx context.Context, opts *sql.TxOptions) (Transaction, error)
	io.Closer
}
