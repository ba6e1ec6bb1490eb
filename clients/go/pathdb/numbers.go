package pathdb

import (
	"sync/atomic"

	"pathd"
)

// Numbers are those of a Backend since it was made. pathd.Client.Numbers and pathd.Servers.States have those
// of its sessions and of its queues.
type Numbers struct {
	// Calls that read, calls that write, those of transactions among both, and commits; and how many of
	// each ended with an error.
	Reads, Writes, Commits                   uint64
	FailedReads, FailedWrites, FailedCommits uint64
	// Pages of lists that servers have answered.
	Pages uint64
	// Segments that servers have inserted, updated, kept out as not newer, and deleted.
	Inserted, Updated, Kept, Deleted uint64
}

// Numbers answers the numbers so far.
func (b *Backend) Numbers() Numbers {
	c := &b.counts
	return Numbers{
		Reads: c.reads.all.Load(), Writes: c.writes.all.Load(), Commits: c.commits.all.Load(),
		FailedReads: c.reads.failed.Load(), FailedWrites: c.writes.failed.Load(), FailedCommits: c.commits.failed.Load(),
		Pages:    c.pages.Load(),
		Inserted: c.inserted.Load(), Updated: c.updated.Load(), Kept: c.kept.Load(), Deleted: c.deleted.Load(),
	}
}

// counts are what has happened.
type counts struct {
	reads, writes, commits           calls
	pages                            atomic.Uint64
	inserted, updated, kept, deleted atomic.Uint64
}

func (c *counts) registered(ack pathd.Ack) {
	c.inserted.Add(uint64(ack.Inserted))
	c.updated.Add(uint64(ack.Updated))
	c.kept.Add(uint64(ack.Kept))
}

// calls are the calls of one kind.
type calls struct{ all, failed atomic.Uint64 }

// note counts a call, and answers its error.
func (c *calls) note(err error) error {
	c.all.Add(1)
	if err != nil {
		c.failed.Add(1)
	}
	return err
}
