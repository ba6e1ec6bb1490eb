package calls

import (
	"crypto/sha256"
	"sync"
	"time"
)

const (
	recentFor  = time.Second
	mostRecent = 8192
)

// recent remembers for a second which registrations pathd has acknowledged, by their bytes.
type recent struct {
	mu sync.Mutex
	at map[[sha256.Size]byte]time.Time
}

// has answers whether a registration was acknowledged within the second before a moment.
func (r *recent) has(registration [sha256.Size]byte, now time.Time) bool {
	r.mu.Lock()
	defer r.mu.Unlock()
	at, isThere := r.at[registration]
	return isThere && now.Sub(at) < recentFor
}

// add notes a registration that was acknowledged. Where there are too many, those of earlier seconds are
// forgotten, or else all.
func (r *recent) add(registration [sha256.Size]byte, now time.Time) {
	r.mu.Lock()
	defer r.mu.Unlock()
	if len(r.at) >= mostRecent {
		for it, at := range r.at {
			if now.Sub(at) >= recentFor {
				delete(r.at, it)
			}
		}
	}
	if r.at == nil || len(r.at) >= mostRecent {
		r.at = map[[sha256.Size]byte]time.Time{}
	}
	r.at[registration] = now
}
