package cppki

import (
	"crypto/sha256"
	"sync"
)

// Memory is a bounded Known: it forgets the older half at once.
type Memory struct {
	mu         sync.Mutex
	most       int // of each half
	young, old map[[sha256.Size]byte]struct{}
}

// NewMemory answers a memory of at most so many signatures.
func NewMemory(most int) *Memory {
	return &Memory{most: (most + 1) / 2, young: map[[sha256.Size]byte]struct{}{}}
}

// Has answers whether a signature is known, which then is among the young ones.
func (m *Memory) Has(key [sha256.Size]byte) bool {
	m.mu.Lock()
	defer m.mu.Unlock()
	if _, isThere := m.young[key]; isThere {
		return true
	}
	if _, isThere := m.old[key]; !isThere {
		return false
	}
	m.add(key)
	return true
}

// Add notes a signature that is good.
func (m *Memory) Add(key [sha256.Size]byte) {
	m.mu.Lock()
	defer m.mu.Unlock()
	m.add(key)
}

func (m *Memory) add(key [sha256.Size]byte) {
	if len(m.young) >= m.most {
		m.old, m.young = m.young, make(map[[sha256.Size]byte]struct{}, m.most)
	}
	m.young[key] = struct{}{}
}

// Len answers how many signatures are known.
func (m *Memory) Len() int {
	m.mu.Lock()
	defer m.mu.Unlock()
	return len(m.young) + len(m.old)
}
