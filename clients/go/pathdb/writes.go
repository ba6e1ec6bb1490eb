package pathdb

import (
	"context"
	"time"
)

// write is one of a transaction's: what it does to segments that were found by a filter, and to the server.
type write interface {
	apply(f filter, found rows)
	send(ctx context.Context, b *Backend) error
}

// insertion of a segment, which is kept out where there is one of its key that is as new.
type insertion struct{ row }

func (w insertion) apply(f filter, found rows) {
	if f.asksFor(w.row) {
		found.put(w.row)
	}
}

func (w insertion) send(ctx context.Context, b *Backend) error {
	_, err := b.register(ctx, []Meta{{w.kind, w.sent}})
	return err
}

// removal of the segment of a key.
type removal struct{ key }

func (w removal) apply(_ filter, found rows) {
	delete(found, w.key)
}

func (w removal) send(ctx context.Context, b *Backend) error {
	return b.remove(ctx, w.key)
}

// expiry of the segments that expire before a time.
type expiry struct{ before time.Time }

func (w expiry) apply(_ filter, found rows) {
	for key, it := range found {
		if it.Expires.Before(w.before) {
			delete(found, key)
		}
	}
}

func (w expiry) send(ctx context.Context, b *Backend) error {
	_, err := b.purge(ctx, w.before)
	return err
}
