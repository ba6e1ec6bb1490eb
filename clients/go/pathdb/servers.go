package pathdb

import (
	"context"
	"time"

	"pathd"
	pb "pathd/segmentspb"
)

// server is what a Backend asks: one server, or several.
type server interface {
	ListPage(ctx context.Context, kind Type, start, end IA, after *id) (pathd.Page, error)
	register(ctx context.Context, segments *pb.SegmentsRegistrationRequest) (pathd.Ack, error)
	remove(ctx context.Context, of key) (pathd.Ack, error)
	// purge drops the segments that expire at a time or before, and answers how many there were.
	purge(ctx context.Context, at time.Time) (int, error)
	Close()
}

type oneServer struct{ *pathd.Client }

func (s oneServer) register(ctx context.Context, segments *pb.SegmentsRegistrationRequest) (pathd.Ack, error) {
	return s.Register(ctx, segments)
}

func (s oneServer) remove(ctx context.Context, of key) (pathd.Ack, error) {
	return s.Remove(ctx, of.kind, of.id)
}

func (s oneServer) purge(ctx context.Context, at time.Time) (dropped int, err error) {
	s.PurgeInSteps(ctx, at)(func(ack pathd.Ack, fault error) bool {
		dropped, err = dropped+int(ack.Purged), fault
		return true
	})
	return dropped, err
}

// severalServers answers what the first of them has said that acknowledged a command.
type severalServers struct{ *pathd.Servers }

func (s severalServers) register(ctx context.Context, segments *pb.SegmentsRegistrationRequest) (pathd.Ack, error) {
	results, err := s.Register(ctx, segments)
	return firstAck(results), err
}

func (s severalServers) remove(ctx context.Context, of key) (pathd.Ack, error) {
	results, err := s.Remove(ctx, of.kind, of.id)
	return firstAck(results), err
}

func (s severalServers) purge(ctx context.Context, at time.Time) (dropped int, err error) {
	s.PurgeInSteps(ctx, at)(func(results []pathd.Result, fault error) bool {
		dropped, err = dropped+int(firstAck(results).Purged), fault
		return true
	})
	return dropped, err
}

func firstAck(results []pathd.Result) pathd.Ack {
	for _, it := range results {
		if it.Err == nil {
			return it.Ack
		}
	}
	return pathd.Ack{}
}
