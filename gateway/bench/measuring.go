package main

import (
	"context"
	"fmt"
	"log"
	"sort"
	"sync"
	"sync/atomic"
	"time"

	"google.golang.org/protobuf/proto"

	pb "pathd/segmentspb"
)

const (
	core, leaf uint64 = 0x0001_ff00_0000_0110, 0x0001_ff00_0000_0111
	callLimit         = 10 * time.Second
	begun             = 3_000_000_000 // timestamps of registrations, in seconds since 1970
)

// bench measures targets in rounds.
type bench struct {
	targets  []target
	length   time.Duration
	isLookup bool
	wanted   int
	stamp    atomic.Int64
	lookup   []byte
}

// prepare registers the segment that lookups find, at each target that keeps it.
func (b *bench) prepare(ctx context.Context) (err error) {
	b.stamp.Store(time.Now().Unix() % 1_000_000_000)
	if b.lookup, err = proto.Marshal(&pb.SegmentsRequest{SrcIsdAs: core, DstIsdAs: leaf}); err != nil {
		return err
	}
	for _, it := range b.targets {
		ask, end, err := it.connect(ctx, 1)
		if err != nil {
			return fmt.Errorf("%s: %w", it.name, err)
		}
		_, err = ask(ctx, 0, registrationMethod, b.registration(0))
		end()
		if err != nil {
			return fmt.Errorf("%s: %w", it.name, err)
		}
	}
	return nil
}

// registration answers one of a segment of two entries, newer than those before. Each caller has hops
// of its own.
func (b *bench) registration(caller int) []byte {
	info, _ := proto.Marshal(&pb.SegmentInformation{Timestamp: begun + b.stamp.Add(1), SegmentId: 7})
	segment := &pb.PathSegment{SegmentInfo: info}
	for i, as := range []uint64{core, leaf} {
		hop := &pb.HopField{ExpTime: 63, Mac: []byte("abcdef")}
		body := &pb.ASEntrySignedBody{IsdAs: as, HopEntry: &pb.HopEntry{HopField: hop}, Mtu: 1472}
		if i == 0 {
			hop.Egress, body.NextIsdAs = uint64(1+caller), leaf
		} else {
			hop.Ingress = uint64(1 + caller)
		}
		inner, _ := proto.Marshal(body)
		both, _ := proto.Marshal(&pb.HeaderAndBody{Body: inner})
		segment.AsEntries = append(segment.AsEntries, &pb.ASEntry{
			Signed: &pb.SignedMessage{HeaderAndBody: both, Signature: make([]byte, 72)}})
	}
	out, _ := proto.Marshal(&pb.SegmentsRegistrationRequest{
		Segments: map[int32]*pb.Segments{2: {Segments: []*pb.PathSegment{segment}}}})
	return out
}

// figure is what one target did in one round.
type figure struct {
	calls           int
	rate            float64 // calls a second
	median, worst   time.Duration
	client, servers float64 // microseconds of processor time a call
}

// measure prints the medians of rounds, each beside the first target's of the same round.
func (b *bench) measure(rounds, callers int) {
	figures := map[string][]figure{}
	for round := 0; round < rounds; round++ {
		for _, it := range b.targets {
			got, err := b.run(it, callers)
			if err != nil {
				log.Fatalf("%s: %v", it.name, err)
			}
			figures[it.name] = append(figures[it.name], got)
		}
	}
	base := figures[b.targets[0].name]
	for _, it := range b.targets {
		its := figures[it.name]
		var rates, ratios, medians, worsts, servers, costs []float64
		for round, one := range its {
			rates = append(rates, one.rate)
			ratios = append(ratios, one.rate/base[round].rate)
			medians = append(medians, float64(one.median.Microseconds()))
			worsts = append(worsts, float64(one.worst.Microseconds()))
			servers = append(servers, one.servers)
			costs = append(costs, (base[round].client+base[round].servers)/(one.client+one.servers))
		}
		fmt.Printf("%3d callers, %-8s %6.0f a second (%.0f to %.0f), beside %s %.2f (%.2f to %.2f); 50 %% %.0f us, 99 %% %.0f us; "+
			"processor %.0f us a call in servers, all of %s's beside it %.2f (%.2f to %.2f)\n",
			callers, it.name, middle(rates), least(rates), most(rates), b.targets[0].name,
			middle(ratios), least(ratios), most(ratios), middle(medians), middle(worsts),
			middle(servers), b.targets[0].name, middle(costs), least(costs), most(costs))
	}
}

// run has callers call a target for a fifth of the length, and then counts their calls for the length.
func (b *bench) run(it target, callers int) (figure, error) {
	ctx, cancel := context.WithTimeout(context.Background(), 2*b.length+callLimit)
	defer cancel()
	ask, end, err := it.connect(ctx, callers)
	if err != nil {
		return figure{}, err
	}
	defer end()
	if _, err := b.count(ctx, ask, callers, b.length/5); err != nil {
		return figure{}, err
	}
	client, servers := ownProcessor(), processorOf(it.processes)
	got, err := b.count(ctx, ask, callers, b.length)
	got.client = perCall(ownProcessor()-client, got.calls)
	got.servers = perCall(processorOf(it.processes)-servers, got.calls)
	return got, err
}

func perCall(took time.Duration, calls int) float64 {
	return float64(took.Nanoseconds()) / 1000 / float64(calls)
}

func (b *bench) count(ctx context.Context, ask asker, callers int, length time.Duration) (figure, error) {
	times, faults := make([][]time.Duration, callers), make([]error, callers)
	start := time.Now()
	var wait sync.WaitGroup
	for c := 0; c < callers; c++ {
		wait.Add(1)
		go func(c int) {
			defer wait.Done()
			for time.Since(start) < length && faults[c] == nil {
				method, body := lookupMethod, b.lookup
				if !b.isLookup {
					method, body = registrationMethod, b.registration(c)
				}
				at := time.Now()
				reply, err := ask(ctx, c, method, body)
				if err == nil && b.wanted >= 0 && len(reply) != b.wanted {
					err = fmt.Errorf("a reply of %d bytes", len(reply))
				}
				times[c], faults[c] = append(times[c], time.Since(at)), err
			}
		}(c)
	}
	wait.Wait()
	took := time.Since(start).Seconds()
	var all []time.Duration
	for c, its := range times {
		if faults[c] != nil {
			return figure{}, faults[c]
		}
		all = append(all, its...)
	}
	sort.Slice(all, func(i, j int) bool { return all[i] < all[j] })
	return figure{calls: len(all), rate: float64(len(all)) / took, median: all[len(all)/2], worst: all[len(all)*99/100]}, nil
}

func middle(of []float64) float64 {
	sorted := append([]float64(nil), of...)
	sort.Float64s(sorted)
	return sorted[len(sorted)/2]
}

func least(of []float64) (found float64) {
	found = of[0]
	for _, it := range of {
		if it < found {
			found = it
		}
	}
	return found
}

func most(of []float64) (found float64) {
	for _, it := range of {
		if it > found {
			found = it
		}
	}
	return found
}
