package pathdb

import (
	"context"
	"time"

	"google.golang.org/protobuf/proto"
	"pathd"
	pb "pathd/segmentspb"
)

// The most segments of a registration, and the most bytes that a segment's tag and length, and the map
// entries of the three types, have in it beside the segments.
const (
	mostSegments  = 16
	ofOneSegment  = 4
	ofAllEntries  = 3 * 12
	mostOfRequest = pathd.MostRequest - ofAllEntries
)

// register, purge and remove are the commands of a call or of a commit.

func (b *Backend) register(ctx context.Context, metas []Meta) (pathd.Ack, error) {
	request := &pb.SegmentsRegistrationRequest{Segments: map[int32]*pb.Segments{}}
	for _, it := range metas {
		list := request.Segments[int32(it.Type)]
		if list == nil {
			list = new(pb.Segments)
			request.Segments[int32(it.Type)] = list
		}
		list.Segments = append(list.Segments, it.Segment)
	}
	ack, err := b.server.register(ctx, request)
	b.counts.registered(ack)
	return ack, err
}

// purge drops what expires before a time. A segment expires at a whole half second.
func (b *Backend) purge(ctx context.Context, before time.Time) (int, error) {
	dropped, err := b.server.purge(ctx, before.Add(-time.Nanosecond))
	b.counts.deleted.Add(uint64(dropped))
	return dropped, err
}

func (b *Backend) remove(ctx context.Context, of key) error {
	ack, err := b.server.remove(ctx, of)
	b.counts.deleted.Add(uint64(ack.Purged))
	return err
}

// command is one command of a commit, or the purges of one DeleteExpired.
type command func(ctx context.Context, b *Backend) error

// commandsOf answers the commands of writes, in their order. Insertions that follow one another are as few
// registrations as have room for them.
func commandsOf(writes []write) (all []command) {
	var metas []Meta
	size := 0
	end := func() {
		if len(metas) > 0 {
			all = append(all, registrationOf(metas))
		}
		metas, size = nil, 0
	}
	for _, it := range writes {
		inserted, isInsertion := it.(insertion)
		if !isInsertion {
			end()
			all = append(all, it.send)
			continue
		}
		more := ofOneSegment + proto.Size(inserted.sent)
		if len(metas) == mostSegments || size+more > mostOfRequest {
			end()
		}
		metas, size = append(metas, Meta{inserted.kind, inserted.sent}), size+more
	}
	end()
	return all
}

func registrationOf(metas []Meta) command {
	return func(ctx context.Context, b *Backend) error {
		_, err := b.register(ctx, metas)
		return err
	}
}
