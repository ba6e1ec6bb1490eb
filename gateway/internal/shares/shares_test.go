package shares

import (
	"context"
	"fmt"
	"net/netip"
	"testing"
	"time"
)

// holder is idle since a moment.
type holder struct {
	since int64
	lost  int
}

func (h *holder) IdleSince() int64 { return h.since }
func (h *holder) Lose()            { h.lost++ }

func TestAPeerHasItsShareAtTheMost(t *testing.T) {
	pool := New(Bounds{All: 8, OfPeer: 2})
	busy := func(peers ...Peer) *Claim { return pool.Claim(new(holder), peers...) }
	first := busy("a")
	for number, c := range []struct {
		claim  *Claim
		isFree bool
	}{
		{first, true}, {busy("a"), true}, {busy("a"), false}, {busy("b", "a"), false},
		{busy("b", "certificate"), true}, {busy("c", "certificate"), true}, {busy("d", "certificate"), false},
		{busy("d"), true}, {busy("d"), true}, {busy("e"), true}, {busy("e"), true}, {busy("f"), false},
	} {
		if c.claim.Take(1) != c.isFree {
			t.Errorf("claim %d: %v", number, !c.isFree)
		}
	}
	first.Give(1)
	if !busy("a").Take(1) || pool.Taken() != 8 {
		t.Error("what is given back is not free: ", pool.Taken())
	}
}

// TestWhoLosesAPlace has the idlest of the peer's own holders lose, or of the peer with the most.
func TestWhoLosesAPlace(t *testing.T) {
	pool := New(Bounds{All: 4, OfPeer: 2})
	holders := map[string]*holder{"a1": {since: 30}, "a2": {since: 20}, "b1": {since: 10}, "c1": {since: 0}}
	for _, name := range []string{"a1", "a2", "b1", "c1"} {
		if !pool.Claim(holders[name], Peer(name[:1])).Take(1) {
			t.Fatal(name)
		}
	}
	for number, c := range []struct {
		peer   Peer
		isFree bool
		loser  string
	}{
		{"a", true, "a2"},  // a has its share: its own idlest one
		{"d", true, "a1"},  // all is taken, and a has most
		{"e", true, "b1"},  // then each has one: the idlest of all
		{"f", false, "c1"}, // nobody else is idle
	} {
		isFree := pool.Claim(new(holder), c.peer).Take(1)
		if isFree != c.isFree || (holders[c.loser].lost == 1) != c.isFree {
			t.Errorf("claim %d: %v, and %s has lost %d times", number, isFree, c.loser, holders[c.loser].lost)
		}
	}
	if pool.Taken() != 4 {
		t.Error(pool.Taken())
	}
}

// TestPatience has a holder lose what it has to a peer with as much once it is idle for a minute, and at
// once to a peer with less. The first of some peers is idle, and the others are not.
func TestPatience(t *testing.T) {
	for number, c := range []struct {
		peers  string
		since  time.Duration
		to     Peer
		isLost bool
	}{
		{"aaa", time.Second, "a", false}, {"aaa", time.Hour, "a", true}, // its own share
		{"abab", time.Second, "b", false}, {"abab", time.Hour, "b", true}, // as much
		{"abde", time.Second, "c", false}, {"abde", time.Hour, "c", true}, // as much as the new one makes
		{"abab", time.Second, "c", true}, // more
	} {
		pool := New(Bounds{All: 4, OfPeer: 3, Patience: time.Minute})
		idle := &holder{since: time.Now().Add(-c.since).UnixNano()}
		claim := pool.Claim(idle, Peer(c.peers[:1]))
		claim.Take(1)
		for _, peer := range c.peers[1:] {
			pool.Claim(new(holder), Peer(peer)).Take(1)
		}
		if pool.Claim(new(holder), c.to).Take(1) != c.isLost || (idle.lost == 1) != c.isLost {
			t.Errorf("case %d: lost %d times", number, idle.lost)
		}
		if c.isLost && (claim.Take(1) || claim.Amount() != 0) {
			t.Error("a claim that has lost takes more")
		}
	}
}

func TestAClaimHasItsBound(t *testing.T) {
	pool := New(Bounds{All: 100, OfPeer: 50, OfClaim: 10})
	claim := pool.Claim(new(holder), "a")
	if !claim.Take(9) || !claim.Take(30) || claim.Take(1) || claim.Amount() != 39 {
		t.Error(claim.Amount())
	}
	other := pool.Claim(new(holder), "a")
	if !other.Take(11) || pool.Claim(new(holder), "a").Take(1) {
		t.Error("a peer has more than its share")
	}
	claim.Give(1000)
	if claim.Amount() != 0 || pool.Taken() != 11 {
		t.Error(pool.Taken())
	}
}

func TestAClaimJoinsAPeer(t *testing.T) {
	pool := New(Bounds{All: 8, OfPeer: 1})
	one, two := pool.Claim(new(holder), "a"), pool.Claim(new(holder), "b")
	if !one.Take(1) || !two.Take(1) || !one.Join("certificate") || two.Join("certificate") {
		t.Error("joined")
	}
	one.GiveAll()
	if !two.Join("certificate") || pool.Taken() != 1 {
		t.Error("not joined")
	}
	two.GiveAll()
	if len(pool.peers) != 0 {
		t.Error("peers stay: ", pool.peers)
	}
}

func TestPeers(t *testing.T) {
	of := func(text string) Peer { return Address(netip.MustParseAddr(text)) }
	if of("2001:db8::1") != of("2001:db8::ffff:1") || of("2001:db8::1") == of("2001:db8:0:1::1") {
		t.Error("addresses of IPv6")
	}
	if of("::ffff:10.0.0.1") != of("10.0.0.1") || of("10.0.0.1") == of("10.0.0.2") {
		t.Error("addresses of IPv4")
	}
	if Quarter(1) != 1 || Quarter(4) != 1 || Quarter(5) != 2 || Quarter(1024) != 256 {
		t.Error("quarters")
	}
}

// TestTurns has a peer with its share of turns wait, and others not.
func TestTurns(t *testing.T) {
	turns := NewTurns(4, 2)
	enter := func(isFree bool, peers ...Peer) func() {
		t.Helper()
		limit := 50 * time.Millisecond
		if isFree {
			limit = time.Minute
		}
		ctx, cancel := context.WithTimeout(context.Background(), limit)
		defer cancel()
		end, err := turns.Enter(ctx, peers)
		if (err == nil) != isFree {
			t.Fatal(peers, err)
		}
		return end
	}
	first := enter(true, "a")
	enter(true, "a", "certificate")
	enter(false, "a")
	third := enter(true, "b", "certificate")
	enter(false, "c", "certificate")
	enter(true, "b")
	enter(false, "c")
	third()
	enter(true, "c", "certificate")()
	first()
	enter(true, "a")
	if len(turns.waiting) != 0 || turns.count != 3 {
		t.Error(turns.waiting, turns.count)
	}
}

// TestWhoseTurnIsNext has all turns be one peer's, for which it waits in vain, and others come later.
func TestWhoseTurnIsNext(t *testing.T) {
	turns, order := NewTurns(3, 3), make(chan Peer, 8)
	var ends []func()
	for turn := 0; turn < 3; turn++ {
		end, err := turns.Enter(context.Background(), []Peer{"a"})
		if err != nil {
			t.Fatal(err)
		}
		ends = append(ends, end)
	}
	for number, peer := range []Peer{"a", "a", "b", "c", "b"} {
		go func(peer Peer) {
			turns.Enter(context.Background(), []Peer{peer})
			order <- peer
		}(peer)
		for isThere := false; !isThere; time.Sleep(time.Millisecond) {
			turns.mu.Lock()
			isThere = turns.came == uint64(3+number+1)
			turns.mu.Unlock()
		}
	}
	for turn, wanted := range []Peer{"b", "c", "a"} { // those that have none, by their number
		ends[turn]()
		if got := <-order; got != wanted {
			t.Errorf("turn %d: %s", turn, got)
		}
	}
}

func TestBudgets(t *testing.T) {
	budgets, now := NewBudgets(3, 0.5), time.Now()
	spend := func(peers ...Peer) (count int) {
		for budgets.Has(peers, now) {
			budgets.Spend(peers, now)
			count++
		}
		return count
	}
	for number, c := range []struct {
		peers  []Peer
		after  time.Duration
		wanted int
	}{
		{[]Peer{"a"}, 0, 3}, {[]Peer{"a"}, time.Second, 0}, {[]Peer{"a"}, time.Second, 1},
		{[]Peer{"b", "a"}, 0, 0}, {[]Peer{"b"}, 0, 3}, {[]Peer{"a", "b"}, time.Hour, 3},
	} {
		now = now.Add(c.after)
		if got := spend(c.peers...); got != c.wanted {
			t.Errorf("case %d: %d", number, got)
		}
	}
	for number := 0; number < 3*mostBudgets; number++ {
		spend(Peer(fmt.Sprint(number)))
		now = now.Add(time.Millisecond)
	}
	if len(budgets.spent) > mostBudgets {
		t.Error(len(budgets.spent), "peers are remembered")
	}
}
