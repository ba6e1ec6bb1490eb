package pathd

import (
	"context"
	"time"
)

// A step of a purge, as docs/PROTOCOL.md has them: the moment of its command, and the half seconds that
// it covers before this moment.
type step struct {
	moment, width Moment
}

const (
	// reach is how far before its last moment a purge begins.
	reach Moment = 262144
	// A step covers at most a part of what is left, where that is more than the least that it may cover.
	share, leastWidth Moment = 8, 1024
	// enoughDropped is about the most segments that a step should drop. After fewer than fewDropped the next one
	// covers twice as much, and after more than manyDropped less.
	enoughDropped, fewDropped, manyDropped = 512, 256, 1024
)

func firstStep(last Moment) step {
	if last < reach {
		return step{0, reach}
	}
	return step{last - reach, reach}
}

// next answers the step after one before the last moment, which has dropped so many segments.
func (s step) next(dropped uint32, last Moment) step {
	width := s.width
	switch {
	case dropped > manyDropped:
		width /= Moment(dropped/enoughDropped + 1)
	case dropped < fewDropped:
		width *= 2
	}
	if width == 0 {
		width = 1
	}
	left := last - s.moment
	most := left / share
	if most < leastWidth {
		most = leastWidth
	}
	if width > most {
		width = most
	}
	if width > left {
		width = left
	}
	return step{s.moment + width, width}
}

// eachStep purges by the moment of each step up to a time. The purge answers how many segments it has
// dropped, and whether the next one is wanted.
func eachStep(at time.Time, purge func(moment Moment) (dropped uint32, goesOn bool)) {
	last := MomentOf(at)
	for now := firstStep(last); ; {
		dropped, goesOn := purge(now.moment)
		if !goesOn || now.moment == last {
			return
		}
		now = now.next(dropped, last)
	}
}

// PurgeInSteps drops what Purge drops, by several commands whose moments rise, so that each drops few
// segments and others wait less. The Ack of each goes to a function that answers whether it wants more. An
// error is the last that it gets. Segments of one expiry are dropped by one command.
func (c *Client) PurgeInSteps(ctx context.Context, at time.Time) func(yield func(Ack, error) bool) {
	return func(yield func(Ack, error) bool) {
		eachStep(at, func(moment Moment) (uint32, bool) {
			ack, err := c.command(ctx, KindPurge, purgeBody(moment))
			return ack.Purged, yield(ack, err) && err == nil
		})
	}
}

// PurgeInSteps drops from each server what Purge drops, as Client.PurgeInSteps does. A step is as wide as
// the one before lets it be at the server that dropped the most of those that have acknowledged it.
func (s *Servers) PurgeInSteps(ctx context.Context, at time.Time) func(yield func([]Result, error) bool) {
	return func(yield func([]Result, error) bool) {
		eachStep(at, func(moment Moment) (uint32, bool) {
			results, err := s.command(ctx, purge, purgeBody(moment))
			return mostPurged(results), yield(results, err) && err == nil
		})
	}
}

func mostPurged(results []Result) (most uint32) {
	for _, it := range results {
		if it.Err == nil && it.Ack.Purged > most {
			most = it.Ack.Purged
		}
	}
	return most
}
