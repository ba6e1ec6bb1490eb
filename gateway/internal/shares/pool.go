// Package shares divides what the gateway has among its peers, so that no peer takes what others need.
package shares

import (
	"crypto/sha256"
	"crypto/x509"
	"fmt"
	"net/netip"
	"sync"
	"time"
)

// addressBits is how many bits of an address of IPv6 tell peers apart: a network gives a host as many
// addresses with the same 64 bits as it wants.
const addressBits = 64

// Peer is who has a share.
type Peer string

// Address answers the peer at an address: of IPv6 all addresses with the same first 64 bits are one.
func Address(of netip.Addr) Peer {
	if of = of.Unmap(); of.Is6() {
		network, _ := of.WithZone("").Prefix(addressBits)
		return Peer(network.String())
	}
	return Peer(of.String())
}

// Certificate answers the peer that has a certificate.
func Certificate(of *x509.Certificate) Peer {
	return Peer(fmt.Sprintf("certificate %x", sha256.Sum256(of.Raw)))
}

// Quarter answers the share of one peer: a quarter, rounded up.
func Quarter(all int64) int64 { return (all + 3) / 4 }

// Bounds are those of a pool.
type Bounds struct {
	// All is how much there is.
	All int64
	// OfPeer is how much of it a peer may have before it takes more; 0 is no bound.
	OfPeer int64
	// OfClaim is how much a claim may have before it takes more; 0 is no bound.
	OfClaim int64
	// Patience is how long a holder has to be idle before it may lose what it has to its own peer, or to
	// one that has as much. Without it peers would take each other's places in turns.
	Patience time.Duration
	// OfLarger is how long a holder of a peer has to be idle that has more than the one which needs it.
	OfLarger time.Duration
}

// Holder has something of a pool.
type Holder interface {
	// IdleSince answers since when the holder has made no use of what it has, in Unix nanoseconds: 0
	// while it does. The pool is locked meanwhile.
	IdleSince() int64
	// Lose has the holder end, as another one needs what it has. It has nothing any more.
	Lose()
}

// Pool is what peers share: places, or bytes.
type Pool struct {
	bounds Bounds

	mu    sync.Mutex
	taken int64
	peers map[Peer]*share
}

// share is what a peer has.
type share struct {
	taken  int64
	claims map[*Claim]struct{} // that have something
}

// New answers a pool of which nothing is taken.
func New(bounds Bounds) *Pool { return &Pool{bounds: bounds, peers: map[Peer]*share{}} }

// Taken answers how much of the pool is taken.
func (p *Pool) Taken() int64 {
	p.mu.Lock()
	defer p.mu.Unlock()
	return p.taken
}

// Claim is what a holder has of a pool.
type Claim struct {
	pool   *Pool
	holder Holder
	peers  []Peer
	amount int64
	isLost bool
}

// Claim answers a claim of a holder that belongs to each of these peers. It has nothing yet.
func (p *Pool) Claim(holder Holder, peers ...Peer) *Claim {
	return &Claim{pool: p, holder: holder, peers: peers}
}

// Amount answers how much the claim has.
func (c *Claim) Amount() int64 {
	c.pool.mu.Lock()
	defer c.pool.mu.Unlock()
	return c.amount
}

// Take takes so much, or nothing: then it answers false. Where a bound is reached, holders that are idle
// lose what they have, the one first that has been idle for the longest time: of the same peer where
// that has its share, and else of the peer that has most.
func (c *Claim) Take(amount int64) bool {
	c.pool.mu.Lock()
	losers, isFree := c.makeRoom(c.peers)
	if isFree {
		c.set(c.amount + amount)
	}
	c.pool.mu.Unlock()
	lose(losers)
	return isFree
}

// Join adds a peer to those that the claim belongs to, where that has room for what the claim has.
func (c *Claim) Join(peer Peer) bool {
	c.pool.mu.Lock()
	losers, isFree := c.makeRoom([]Peer{peer})
	if isFree {
		amount := c.amount
		c.set(0)
		c.peers = append(c.peers[:len(c.peers):len(c.peers)], peer)
		c.set(amount)
	}
	c.pool.mu.Unlock()
	lose(losers)
	return isFree
}

// Give gives so much back, or all where the claim has less.
func (c *Claim) Give(amount int64) {
	c.pool.mu.Lock()
	defer c.pool.mu.Unlock()
	if amount > c.amount {
		amount = c.amount
	}
	c.set(c.amount - amount)
}

// GiveAll gives all back.
func (c *Claim) GiveAll() {
	c.pool.mu.Lock()
	defer c.pool.mu.Unlock()
	c.set(0)
}

func lose(claims []*Claim) {
	for _, it := range claims {
		it.holder.Lose()
	}
}

// set notes what the claim has from now on.
func (c *Claim) set(amount int64) {
	p, more := c.pool, amount-c.amount
	c.amount = amount
	p.taken += more
	for _, peer := range c.peers {
		of := p.peers[peer]
		if of == nil {
			of = &share{claims: map[*Claim]struct{}{}}
			p.peers[peer] = of
		}
		of.taken += more
		if amount > 0 {
			of.claims[c] = struct{}{}
		} else {
			delete(of.claims, c)
		}
		if len(of.claims) == 0 {
			delete(p.peers, peer)
		}
	}
}

// makeRoom answers whether the claim may take more as one of these peers, and who has lost for it.
func (c *Claim) makeRoom(peers []Peer) (losers []*Claim, isFree bool) {
	p := c.pool
	if c.isLost || p.bounds.OfClaim > 0 && c.amount >= p.bounds.OfClaim {
		return nil, false
	}
	drop := func(one *Claim) bool {
		if one != nil {
			one.set(0)
			one.isLost = true
			losers = append(losers, one)
		}
		return one != nil
	}
	for _, peer := range peers {
		for of := p.peers[peer]; of != nil && p.bounds.OfPeer > 0 && of.taken >= p.bounds.OfPeer; {
			if !drop(p.idlest(of, c, p.bounds.Patience)) {
				return losers, false
			}
		}
	}
	for p.taken >= p.bounds.All {
		if !drop(p.idlestOfLargest(c)) {
			return losers, false
		}
	}
	return losers, true
}

// idlest answers the claim of a share whose holder has been idle for the longest time, and at least for as
// long as this; nil where there is none. It is another one than a claim.
func (p *Pool) idlest(of *share, but *Claim, patience time.Duration) (found *Claim) {
	oldest := time.Now().Add(-patience).UnixNano()
	for one := range of.claims {
		if since := one.holder.IdleSince(); one != but && since != 0 && since <= oldest {
			found, oldest = one, since
		}
	}
	return found
}

// idlestOfLargest answers the idlest claim of the peer that has most, among those with claims that may be
// lost to another claim.
func (p *Pool) idlestOfLargest(to *Claim) (found *Claim) {
	own, largest, oldest := int64(0), int64(0), int64(0)
	for _, peer := range to.peers {
		if of := p.peers[peer]; of != nil && of.taken > own {
			own = of.taken
		}
	}
	for _, of := range p.peers {
		patience := p.bounds.Patience
		if of.taken > own+1 {
			patience = p.bounds.OfLarger
		}
		one := p.idlest(of, to, patience)
		if one == nil || of.taken < largest {
			continue
		}
		if since := one.holder.IdleSince(); of.taken > largest || since < oldest {
			found, largest, oldest = one, of.taken, since
		}
	}
	return found
}
