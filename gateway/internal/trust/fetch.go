package trust

import (
	"context"
	"errors"
	"fmt"
	"sync"
	"sync/atomic"
	"time"

	"google.golang.org/grpc"
	"google.golang.org/grpc/backoff"
	"google.golang.org/grpc/codes"
	"google.golang.org/grpc/status"
	"google.golang.org/protobuf/types/known/timestamppb"

	"pathd/gateway/internal/calls"
	"pathd/gateway/internal/cppki"
	control "pathd/gateway/internal/pb/controlplanepb"
	"pathd/gateway/internal/shares"
)

const (
	fetchLimit   = 3 * time.Second
	againAfter   = 10 * time.Second // an AS's key that was not found is asked for again
	mostMissing  = 4096
	mostFetched  = 4096 // chains
	mostSteps    = 16   // updates of a TRC that are fetched for one entry
	mostResponse = 1 << 20

	// How many fetches there are at one time, and of one peer.
	mostFetches, ofPeer = 64, 1
	// How many keys that are not there a peer may name at once, and a second.
	misses, missesPerSecond = 16, 1

	longestPause = 3 * time.Second // before a control service that can't be reached is tried again
)

// fetcher asks a control service.
type fetcher struct {
	address string
	turns   *shares.Turns
	budgets *shares.Budgets

	mu      sync.Mutex
	conn    *grpc.ClientConn
	missing map[string]miss

	found, failed, unanswered atomic.Uint64
}

// miss is why something was not found, and when.
type miss struct {
	err error
	at  time.Time
}

func newFetcher(address string) *fetcher {
	return &fetcher{
		address: address, missing: map[string]miss{},
		turns:   shares.NewTurns(mostFetches, ofPeer),
		budgets: shares.NewBudgets(misses, missesPerSecond),
	}
}

// fetched is what was fetched, beside the folder.
type fetched struct {
	trcs   []*cppki.TRC
	chains []*cppki.Chain
}

// drop drops chains that have expired, and answers whether there was one.
func (f *fetched) drop(now time.Time) bool {
	var left []*cppki.Chain
	for _, one := range f.chains {
		if !now.After(one.AS.NotAfter) && !now.After(one.CA.NotAfter) {
			left = append(left, one)
		}
	}
	isLess := len(left) < len(f.chains)
	f.chains = left
	return isLess
}

// fetch fetches what the material lacks for an entry that peers have sent, the updates of its TRC and its
// chains, and verifies it then. Its error is a Fault where the entry may be good all the same.
func (k *Keeper) fetch(ctx context.Context, peers []shares.Peer, entry *cppki.Entry) error {
	f := k.fetcher
	name := fmt.Sprintf("%v %x %d %d %v", entry.Signer, entry.KeyID, entry.Base, entry.Serial, entry.Segment)
	if err := f.missed(name); err != nil {
		return err
	}
	if !f.budgets.Has(peers, time.Now()) {
		return calls.NewFault(codes.ResourceExhausted, "too many keys were named that the control service does not have")
	}
	err := k.fetchAll(ctx, entry)
	if err == nil {
		err = k.verifyOnce(ctx, entry)
		if !isMissing(err) {
			f.found.Add(1)
			return err
		}
	}
	reason := status.Convert(err).Message()
	switch {
	case ctx.Err() != nil:
		return ctx.Err()
	case isPassing(err):
		f.unanswered.Add(1)
		return calls.NewFault(codes.Unavailable, "the control service does not answer: %s", reason)
	}
	f.failed.Add(1)
	f.budgets.Spend(peers, time.Now())
	err = errors.New("the control service was asked: " + reason)
	f.miss(name, err)
	return err
}

// isPassing answers whether an error says nothing of what was asked for, as there was no answer.
func isPassing(err error) bool {
	answer, isOfCall := status.FromError(err)
	return isOfCall && answer.Code() != codes.NotFound && answer.Code() != codes.InvalidArgument
}

// missed answers why something was not found shortly before, or nil.
func (f *fetcher) missed(name string) error {
	f.mu.Lock()
	defer f.mu.Unlock()
	if its := f.missing[name]; time.Since(its.at) < againAfter {
		return its.err
	}
	return nil
}

func (f *fetcher) miss(name string, err error) {
	f.mu.Lock()
	defer f.mu.Unlock()
	if len(f.missing) >= mostMissing {
		f.missing = map[string]miss{}
	}
	f.missing[name] = miss{err, time.Now()}
}

func (k *Keeper) fetchAll(ctx context.Context, entry *cppki.Entry) error {
	ctx, cancel := context.WithTimeout(ctx, fetchLimit)
	defer cancel()
	client, err := k.fetcher.client(ctx)
	if err != nil {
		return err
	}
	trcs, err := k.newerTRCs(ctx, client, entry)
	if err != nil {
		return err
	}
	chains, err := chainsOf(ctx, client, entry)
	if err != nil {
		return err
	}
	return k.add(trcs, chains)
}

// add has what was fetched count, where all of it is good. What is here already is left out.
func (k *Keeper) add(trcs []*cppki.TRC, chains []*cppki.Chain) error {
	k.mu.Lock()
	defer k.mu.Unlock()
	before, now := k.fetched, k.material.Load()
	k.fetched.trcs = before.trcs[:len(before.trcs):len(before.trcs)]
	for _, one := range trcs {
		if now.TRC(one.ISD, one.Base, one.Serial) == nil {
			k.fetched.trcs = append(k.fetched.trcs, one)
		}
	}
	k.fetched.chains = before.chains[:len(before.chains):len(before.chains)]
	for _, one := range chains {
		if !now.Has(one) {
			k.fetched.chains = append(k.fetched.chains, one)
		}
	}
	if len(k.fetched.trcs) == len(before.trcs) && len(k.fetched.chains) == len(before.chains) {
		return nil
	}
	if more := len(k.fetched.chains) - mostFetched; more > 0 {
		k.fetched.chains = k.fetched.chains[more:]
	}
	if err := k.publish(); err != nil {
		k.fetched = before
		return err
	}
	return nil
}

func (f *fetcher) client(ctx context.Context) (control.TrustMaterialServiceClient, error) {
	f.mu.Lock()
	defer f.mu.Unlock()
	if f.conn == nil {
		pauses := backoff.DefaultConfig
		pauses.MaxDelay = longestPause
		conn, err := grpc.DialContext(ctx, f.address, grpc.WithInsecure(),
			grpc.WithConnectParams(grpc.ConnectParams{Backoff: pauses, MinConnectTimeout: fetchLimit}),
			grpc.WithDefaultCallOptions(grpc.MaxCallRecvMsgSize(mostResponse)))
		if err != nil {
			return nil, err
		}
		f.conn = conn
	}
	return control.NewTrustMaterialServiceClient(f.conn), nil
}

// newerTRCs answers the updates up to the TRC that the signer of an entry knew.
func (k *Keeper) newerTRCs(ctx context.Context, client control.TrustMaterialServiceClient, entry *cppki.Entry) (found []*cppki.TRC, err error) {
	isd := entry.Signer.ISD()
	latest := k.material.Load().TRC(isd, 0, 0)
	if latest == nil || latest.Base != entry.Base {
		return nil, errors.New("a base TRC has to be in the folder")
	}
	if entry.Serial-latest.Serial > mostSteps {
		return nil, errors.New("the TRC is too many updates away")
	}
	for serial := latest.Serial + 1; serial <= entry.Serial; serial++ {
		response, err := client.TRC(ctx, &control.TRCRequest{Isd: uint32(isd), Base: uint64(entry.Base), Serial: uint64(serial)})
		if err != nil {
			return nil, err
		}
		trc, err := cppki.ParseTRC(response.Trc)
		if err != nil {
			return nil, err
		}
		found = append(found, trc)
	}
	return found, nil
}

func chainsOf(ctx context.Context, client control.TrustMaterialServiceClient, entry *cppki.Entry) (found []*cppki.Chain, err error) {
	response, err := client.Chains(ctx, &control.ChainsRequest{
		IsdAs: uint64(entry.Signer), SubjectKeyId: entry.KeyID,
		AtLeastValidSince: timestamppb.New(entry.Segment.NotBefore),
		AtLeastValidUntil: timestamppb.New(entry.Segment.NotAfter)})
	if err != nil {
		return nil, err
	}
	for _, one := range response.Chains {
		chain, err := cppki.ParseChain(one.AsCert, one.CaCert)
		if err != nil {
			return nil, err
		}
		if chain.ISDAS != entry.Signer {
			return nil, fmt.Errorf("a chain is of %v", chain.ISDAS)
		}
		found = append(found, chain)
	}
	if len(found) == 0 {
		return nil, errors.New("it has no chain for the key")
	}
	return found, nil
}
