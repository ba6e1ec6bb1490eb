package pathd

import (
	"context"
	"time"
)

// pool has sessions with one server, which calls share.
type pool struct {
	links  []*link
	counts counts
}

func newPool(address string, dialer Dialer, patience time.Duration, window, sessions int) *pool {
	p := new(pool)
	for len(p.links) < sessions {
		p.links = append(p.links, newLink(address, dialer, patience, window, &p.counts))
	}
	return p
}

// pick answers the open session with the fewest requests under way, and whether it was open before.
// Where all that are open have some, another is opened for later calls if there may be more.
func (p *pool) pick(ctx context.Context) (*session, bool, error) {
	var best *session
	var free *link
	for _, it := range p.links {
		s := it.open()
		if s == nil {
			free = it
		} else if best == nil || s.underWay() < best.underWay() {
			best = s
		}
	}
	if best == nil {
		opened, err := free.session(ctx)
		return opened, false, err
	}
	if free != nil && best.underWay() > 0 {
		free.openSoon()
	}
	return best, true, nil
}

// ask answers the body of the reply to a request, and whether it was sent over a session that had been
// open before.
func (p *pool) ask(ctx context.Context, kind byte, body []byte) ([]byte, bool, error) {
	s, wasOpen, err := p.pick(ctx)
	if err != nil {
		return nil, false, err
	}
	reply, err := s.ask(ctx, kind, body)
	return reply, wasOpen, err
}

func (p *pool) close() {
	for _, it := range p.links {
		it.close()
	}
}
