package trust

import (
	"context"
	"crypto/sha256"
	"errors"
	"fmt"
	"time"

	"google.golang.org/grpc/codes"

	"pathd"
	"pathd/gateway/internal/calls"
	"pathd/gateway/internal/cppki"
	"pathd/gateway/internal/door"
)

// Verify answers nil where a SegmentsRegistrationRequest has a segment, and the signature of each entry is
// good now. What can't be read is refused, too. It takes its turn, and looks at the context before each
// entry.
func (k *Keeper) Verify(ctx context.Context, registration []byte) error {
	segment := 0
	err := cppki.Segments(registration, func(content []byte) error {
		segment++
		entries, err := cppki.Entries(content)
		var outside *cppki.RangeError
		if errors.As(err, &outside) {
			return calls.Refuse(pathd.Range, fmt.Sprintf("segment %d: %v", segment, err))
		}
		if err != nil {
			return k.refuse("segment %d: %v", segment, err)
		}
		for at, entry := range entries {
			if err := k.verifyEntry(ctx, entry); err != nil {
				return k.fault(ctx, err, "segment %d, entry %d of %v", segment, at+1, entry.Local)
			}
		}
		return nil
	})
	var fault *calls.Fault
	switch {
	case err == nil && segment == 0:
		return calls.NewFault(codes.InvalidArgument, "the registration has no segment")
	case err == nil || errors.As(err, &fault) || ctx.Err() != nil:
		return err
	}
	return k.refuse("%v", err)
}

// fault answers the error of a registration with an entry that was not found good: a refusal, unless it
// may be good all the same.
func (k *Keeper) fault(ctx context.Context, err error, format string, words ...any) error {
	where := fmt.Sprintf(format, words...)
	var passing *calls.Fault
	switch {
	case ctx.Err() != nil:
		return ctx.Err()
	case errors.As(err, &passing):
		return calls.NewFault(passing.Status, "%s: %s", where, passing.Text)
	}
	return k.refuse("%s: %v", where, err)
}

func (k *Keeper) refuse(format string, words ...any) error {
	k.counts.refused.Add(1)
	return calls.Refuse(pathd.BadSignature, fmt.Sprintf(format, words...))
}

// verifyEntry verifies an entry, once more where something was fetched for it.
func (k *Keeper) verifyEntry(ctx context.Context, entry *cppki.Entry) error {
	err := k.verifyOnce(ctx, entry)
	if k.fetcher == nil || !isMissing(err) {
		return err
	}
	peers := door.FromContext(ctx).Peers()
	end, ended := k.fetcher.turns.Enter(ctx, peers)
	if ended != nil {
		return ended
	}
	defer end()
	if err = k.verifyOnce(ctx, entry); !isMissing(err) {
		return err // another call has fetched it meanwhile
	}
	return k.fetch(ctx, peers, entry)
}

// isMissing answers whether an entry may be good by what the material lacks.
func isMissing(err error) bool {
	return errors.Is(err, cppki.ErrNoChain) || errors.Is(err, cppki.ErrNoTRC) || errors.Is(err, cppki.ErrValidity)
}

func (k *Keeper) verifyOnce(ctx context.Context, entry *cppki.Entry) error {
	end, ended := k.turns.Enter(ctx, door.FromContext(ctx).Peers())
	if ended != nil {
		return ended
	}
	defer end()
	memory := &counted{Known: k.known}
	err := k.material.Load().Verify(entry, time.Now(), memory)
	switch {
	case err == nil && memory.isKnown:
		k.counts.remembered.Add(1)
	case err == nil:
		k.counts.good.Add(1)
	}
	return err
}

// counted notes whether a signature was known.
type counted struct {
	cppki.Known
	isKnown bool
}

// Has asks the memory.
func (c *counted) Has(key [sha256.Size]byte) bool {
	c.isKnown = c.Known.Has(key)
	return c.isKnown
}
