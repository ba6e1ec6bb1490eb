package shares

import (
	"sync"
	"time"
)

// mostBudgets is how many peers have a budget that is not whole.
const mostBudgets = 4096

// Budgets lets each peer have so many at once, and so many a second.
type Budgets struct {
	atOnce, perSecond float64

	mu    sync.Mutex
	spent map[Peer]spent
}

// spent is how much a peer lacked of its budget at a moment.
type spent struct {
	amount float64
	at     time.Time
}

// NewBudgets answers budgets that are whole.
func NewBudgets(atOnce, perSecond float64) *Budgets {
	return &Budgets{atOnce: atOnce, perSecond: perSecond, spent: map[Peer]spent{}}
}

// Has answers whether each of these peers has one left at a moment.
func (b *Budgets) Has(peers []Peer, now time.Time) bool {
	b.mu.Lock()
	defer b.mu.Unlock()
	for _, peer := range peers {
		if b.lacks(peer, now) > b.atOnce-1 {
			return false
		}
	}
	return true
}

// Spend takes one from the budget of each of these peers.
func (b *Budgets) Spend(peers []Peer, now time.Time) {
	b.mu.Lock()
	defer b.mu.Unlock()
	for _, peer := range peers {
		b.spent[peer] = spent{b.lacks(peer, now) + 1, now}
	}
	if len(b.spent) > mostBudgets {
		b.forget(now)
	}
}

// forget forgets the peers whose budgets are whole again, or all where that are few.
func (b *Budgets) forget(now time.Time) {
	for peer := range b.spent {
		if b.lacks(peer, now) == 0 {
			delete(b.spent, peer)
		}
	}
	if len(b.spent) > mostBudgets/2 {
		b.spent = map[Peer]spent{}
	}
}

func (b *Budgets) lacks(peer Peer, now time.Time) float64 {
	its := b.spent[peer]
	left := its.amount - now.Sub(its.at).Seconds()*b.perSecond
	if left < 0 {
		return 0
	}
	return left
}
