package pathd

import (
	"context"
	"errors"
	"reflect"
	"sync"
	"testing"
	"time"

	pb "pathd/segmentspb"
)

// serversOf answers servers, and a context for their calls.
func serversOf(t *testing.T, options Options, stores ...*store) (*Servers, context.Context) {
	var addresses []string
	for _, it := range stores {
		addresses = append(addresses, it.address)
	}
	servers, err := NewServers(addresses, options)
	if err != nil {
		t.Fatal(err)
	}
	ctx, cancel := context.WithTimeout(context.Background(), limit)
	t.Cleanup(func() { servers.Close(); cancel() })
	return servers, ctx
}

func running(t *testing.T, answer func([]byte) []byte) *store {
	s := newStore(t, answer)
	s.start()
	return s
}

func TestNeeded(t *testing.T) {
	for _, c := range []struct{ servers, majority int }{{1, 1}, {2, 2}, {3, 2}, {4, 3}, {5, 3}} {
		if One.needed(c.servers) != 1 || Majority.needed(c.servers) != c.majority || All.needed(c.servers) != c.servers {
			t.Errorf("%v", c)
		}
	}
	if _, err := NewServers(nil, Options{}); err != ErrNoServers {
		t.Error(err)
	}
}

func TestEachServerGetsEachCommandInOneOrder(t *testing.T) {
	one, other := running(t, taken), running(t, taken)
	servers, ctx := serversOf(t, Options{}, one, other)
	var all sync.WaitGroup
	for number := uint64(0); number < 100; number++ {
		all.Add(1)
		go func(number uint64) {
			defer all.Done()
			results, err := servers.Purge(ctx, Moment(number).Time())
			if err != nil || !reflect.DeepEqual(results, make([]Result, 2)) {
				t.Errorf("%v, %v", results, err)
			}
		}(number)
	}
	all.Wait()
	servers.Remove(ctx, pb.SegmentType_SEGMENT_TYPE_UP, [32]byte{})
	servers.Register(ctx, &pb.SegmentsRegistrationRequest{})
	servers.Ask(ctx, KindRegister, []byte("a body"))
	ofOne, _ := one.came()
	ofOther, _ := other.came()
	if len(ofOne) != 103 || !reflect.DeepEqual(ofOne, ofOther) || string(ofOne[102]) != "\x01a body" {
		t.Errorf("%d and %d commands, %q", len(ofOne), len(ofOther), ofOne[len(ofOne)-1])
	}
}

func TestAServerThatIsAwayGetsCommandsLater(t *testing.T) {
	up, away := running(t, taken), newStore(t, taken)
	servers, ctx := serversOf(t, Options{Acknowledge: One}, up, away)
	for number := uint64(0); number < 100; number++ {
		if results, err := servers.Purge(ctx, Moment(number).Time()); err != nil || results[1].Err != ErrWaiting {
			t.Errorf("%v, %v", results, err)
		}
	}
	short, cancel := context.WithTimeout(ctx, 50*time.Millisecond)
	defer cancel()
	if err := servers.Drain(short); err != context.DeadlineExceeded {
		t.Error(err)
	}
	waitUntil(t, func() bool { return servers.States()[1].Err != nil })
	if state := servers.States()[1]; state.Waiting != 100 || state.Address != away.address {
		t.Errorf("%v", state)
	}
	away.start()
	if err := servers.Drain(ctx); err != nil {
		t.Error(err)
	}
	ofUp, _ := up.came()
	ofAway, _ := away.came()
	if state := servers.States()[1]; !reflect.DeepEqual(ofUp, ofAway) || state.Err != nil {
		t.Errorf("%d commands, %v", len(ofAway), state)
	}
}

func TestServersThatAreNotAway(t *testing.T) {
	slowly := func(content []byte) []byte {
		time.Sleep(20 * time.Millisecond)
		return taken(content)
	}
	up, away := running(t, taken), newStore(t, slowly)
	servers, ctx := serversOf(t, Options{Acknowledge: Present}, up, away)
	if results, err := servers.Purge(ctx, Moment(1).Time()); err != nil || results[0].Err != nil || results[1].Err != ErrWaiting {
		t.Errorf("%v, %v", results, err)
	}
	away.start()
	if err := servers.Drain(ctx); err != nil {
		t.Error(err)
	}
	if results, err := servers.Purge(ctx, Moment(2).Time()); err != nil || results[0].Err != nil || results[1].Err != nil {
		t.Errorf("%v, %v", results, err)
	}
	mute := running(t, silent)
	waiting, ctx := serversOf(t, Options{Acknowledge: Present}, running(t, taken), mute)
	ended, end := context.WithCancel(ctx)
	defer end()
	go func() {
		mute.waitFor(1)
		waitUntil(t, func() bool { return waiting.States()[0].Waiting == 0 })
		end()
	}()
	var few *NotAcknowledged
	results, err := waiting.Purge(ended, Moment(3).Time())
	if !errors.As(err, &few) || !errors.Is(err, context.Canceled) || results[0].Err != nil || results[1].Err != ErrWaiting {
		t.Errorf("%v, %v", results, err)
	}
	up.stop()
	away.stop()
	short, cancel := context.WithTimeout(ctx, 50*time.Millisecond)
	defer cancel()
	if _, err := servers.Purge(short, Moment(3).Time()); !errors.Is(err, context.DeadlineExceeded) {
		t.Error(err)
	}
}

// No server is sent what comes with a context that has ended.
func TestContextsThatHaveEnded(t *testing.T) {
	store := running(t, taken)
	servers, ctx := serversOf(t, Options{}, store)
	ended, cancel := context.WithCancel(ctx)
	cancel()
	if _, err := servers.Purge(ended, Moment(1).Time()); err != context.Canceled {
		t.Error(err)
	}
	if _, err := servers.Purge(ctx, Moment(2).Time()); err != nil {
		t.Error(err)
	}
	if commands, _ := store.came(); len(commands) != 1 {
		t.Errorf("%d commands", len(commands))
	}
}

func TestAServerThatIsStartedAgain(t *testing.T) {
	store := running(t, silent)
	servers, ctx := serversOf(t, Options{}, store)
	done := make(chan error, 1)
	go func() {
		_, err := servers.Purge(ctx, Moment(7).Time())
		done <- err
	}()
	store.waitFor(1)
	store.stop()
	store.lock.Lock()
	store.answer = taken
	store.lock.Unlock()
	store.start()
	if err := <-done; err != nil {
		t.Error(err)
	}
	if commands, _ := store.came(); len(commands) != 2 || !reflect.DeepEqual(commands[0], commands[1]) {
		t.Errorf("%x", commands)
	}
	lookups, commands := servers.Numbers()
	if commands.Repeated -= commands.Failed; lookups != (Numbers{}) || commands != (Numbers{Open: 1, Opened: 2, Failed: commands.Failed, Ended: 1, Repeated: 1}) {
		t.Errorf("%+v, %+v", lookups, commands)
	}
}

func TestTooFewAcknowledge(t *testing.T) {
	up, away := running(t, taken), newStore(t, taken)
	servers, ctx := serversOf(t, Options{}, up, away)
	cancelled, cancel := context.WithCancel(ctx)
	go func() {
		up.waitFor(1)
		waitUntil(t, func() bool { return servers.States()[0].Waiting == 0 })
		cancel()
	}()
	results, err := servers.Purge(cancelled, Moment(1).Time())
	var few *NotAcknowledged
	if !errors.As(err, &few) || !errors.Is(err, context.Canceled) || len(few.Results) != 2 {
		t.Errorf("%v", err)
	}
	if results[0].Err != nil || results[1].Err != ErrWaiting {
		t.Errorf("%v", results)
	}
	away.start()
	if err := servers.Drain(ctx); err != nil {
		t.Error(err)
	}
}

func TestRefusalsOfServers(t *testing.T) {
	up, full := running(t, taken), running(t, refuses(Full))
	servers, ctx := serversOf(t, Options{}, up, full)
	results, err := servers.Purge(ctx, Moment(1).Time())
	var few *NotAcknowledged
	if !errors.As(err, &few) || !errors.Is(err, Full) || results[1].Err != Full {
		t.Errorf("%v, %v", results, err)
	}
	// One that is away is not waited for: what it would answer does not matter.
	some, ctx := serversOf(t, Options{Acknowledge: Present}, full, newStore(t, taken))
	if results, err := some.Purge(ctx, Moment(1).Time()); !errors.Is(err, Full) || results[1].Err != ErrWaiting {
		t.Errorf("%v, %v", results, err)
	}
	for _, code := range []Code{NoMemory, Busy, Stopped, Unsettled, NotAwaited} {
		left := 2
		store := running(t, func(content []byte) []byte { // of one session, so never at one time
			if left--; left >= 0 {
				return refuses(code)(content)
			}
			return taken(content)
		})
		servers, ctx := serversOf(t, Options{}, store)
		if _, err := servers.Purge(ctx, Moment(1).Time()); err != nil {
			t.Errorf("%v: %v", code, err)
		}
	}
}

func TestFullQueues(t *testing.T) {
	up, away := running(t, taken), newStore(t, taken)
	servers, ctx := serversOf(t, Options{Acknowledge: One, Commands: 2}, up, away)
	for number := uint64(0); number < 2; number++ {
		if _, err := servers.Purge(ctx, Moment(number).Time()); err != nil {
			t.Error(err)
		}
	}
	if _, err := servers.Purge(ctx, Moment(2).Time()); !errors.Is(err, ErrQueueFull) {
		t.Error(err)
	}
	if commands, _ := up.came(); len(commands) != 2 {
		t.Errorf("%d commands", len(commands))
	}
	dropping, ctx := serversOf(t, Options{Bytes: 1, Drop: true}, up)
	if results, err := dropping.Purge(ctx, Moment(0).Time()); err == nil || results[0].Err != ErrDropped || dropping.States()[0].Dropped != 1 {
		t.Errorf("%v, %v", results, err)
	}
}

// The first server refuses each command.
func TestWhatSeveralServersAreAsked(t *testing.T) {
	full := running(t, refuses(Full))
	up := running(t, func(content []byte) []byte {
		if Kind(content[0]).isCommand() {
			return append([]byte{replied | content[0]}, ackBody(Ack{1 << 40, 2, 3, 4, 5})...)
		}
		return []byte{replied | content[0], 7}
	})
	servers, ctx := serversOf(t, Options{Acknowledge: Present}, full, up)
	for _, kind := range []Kind{KindRegister, KindPurge, KindRemove} {
		reply, err := servers.Ask(ctx, kind, nil)
		if ack, fault := ReadAck(reply); err != nil || fault != nil || ack != (Ack{1 << 40, 2, 3, 4, 5}) {
			t.Errorf("%x, %v, %v", reply, err, fault)
		}
	}
	full.stop()
	for _, kind := range []Kind{KindLookup, KindList} {
		if reply, err := servers.Ask(ctx, kind, nil); err != nil || string(reply) != "\x07" {
			t.Errorf("%x, %v", reply, err)
		}
	}
	up.setAnswer(refuses(Expired))
	if _, err := servers.Ask(ctx, KindRegister, nil); !errors.Is(err, Expired) {
		t.Error(err)
	}
}

func TestLookupsFallOver(t *testing.T) {
	away, up := newStore(t, taken), running(t, taken)
	servers, ctx := serversOf(t, Options{}, away, up)
	look := func(ctx context.Context, servers *Servers) {
		t.Helper()
		if _, err := servers.Lookup(ctx, 1, 2); err != nil {
			t.Error(err)
		}
	}
	look(ctx, servers)
	away.start()
	look(ctx, servers)
	up.stop()
	look(ctx, servers)
	_, ofAway := away.came()
	_, ofUp := up.came()
	if ofAway != 1 || ofUp != 2 {
		t.Errorf("%d and %d lookups", ofAway, ofUp)
	}

	hung := running(t, silent)
	const try = 5 * time.Second // as long as a busy machine may take for a reply
	servers, ctx = serversOf(t, Options{Timeout: try}, hung, away)
	begun := time.Now()
	look(ctx, servers)
	if took := time.Since(begun); took < try {
		t.Errorf("%v", took)
	}
	look(ctx, servers)
	if _, count := hung.came(); count != 1 {
		t.Errorf("%d lookups", count)
	}
}

func TestLookupsThatAreRefused(t *testing.T) {
	for code, asked := range map[Code]int{NoMemory: 1, NoCore: 0} {
		first, other := running(t, refuses(code)), running(t, taken)
		servers, ctx := serversOf(t, Options{}, first, other)
		_, err := servers.Lookup(ctx, 1, 2)
		if _, count := other.came(); count != asked || (asked == 0) != (err == code) {
			t.Errorf("%v: %d lookups, %v", code, count, err)
		}
	}
	down := newStore(t, taken)
	servers, ctx := serversOf(t, Options{}, down)
	short, cancel := context.WithTimeout(ctx, 200*time.Millisecond)
	defer cancel()
	if _, err := servers.Lookup(short, 1, 2); err == nil {
		t.Error("a server that is away has answered")
	}
	if _, err := servers.Lookup(context.Background(), 1, 2); err == nil {
		t.Error("a server that is away has answered")
	}
}

func TestClosingServers(t *testing.T) {
	store := running(t, silent)
	servers, ctx := serversOf(t, Options{}, store)
	go func() {
		store.waitFor(1)
		servers.Close()
	}()
	var few *NotAcknowledged
	if _, err := servers.Purge(ctx, Moment(1).Time()); !errors.As(err, &few) || !errors.Is(err, ErrClosed) {
		t.Error(err)
	}
	if _, err := servers.Purge(ctx, Moment(1).Time()); err != ErrClosed {
		t.Error(err)
	}
	if _, err := servers.Lookup(context.Background(), 1, 2); err != ErrClosed {
		t.Error(err)
	}
}
