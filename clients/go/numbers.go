package pathd

import "sync/atomic"

// Numbers are those of the sessions for lookups or for commands, of a client or of servers.
type Numbers struct {
	// How many sessions are open, and how many requests are under way in them.
	Open, UnderWay int
	// In all: how many sessions were opened, could not be opened, and have ended, and how often a request
	// was tried again.
	Opened, Failed, Ended, Repeated uint64
}

// Numbers answers what the client's sessions for lookups and for commands come to.
func (c *Client) Numbers() (lookups, commands Numbers) {
	return c.lookups.numbers(), c.commands.numbers()
}

// Numbers answers what the sessions with all servers come to.
func (s *Servers) Numbers() (lookups, commands Numbers) {
	lookups, commands = s.counts.lookups.numbers(), s.counts.commands.numbers()
	for number, it := range s.senders {
		lookups.add(s.lookups[number])
		commands.add(it.link)
	}
	return lookups, commands
}

func (p *pool) numbers() Numbers {
	n := p.counts.numbers()
	for _, it := range p.links {
		n.add(it)
	}
	return n
}

// counts are what has happened to some sessions.
type counts struct{ opened, failed, ended, repeated atomic.Uint64 }

func (c *counts) numbers() Numbers {
	return Numbers{Opened: c.opened.Load(), Failed: c.failed.Load(), Ended: c.ended.Load(), Repeated: c.repeated.Load()}
}

// add adds the session of a link, where it is open.
func (n *Numbers) add(of *link) {
	if s := of.open(); s != nil {
		n.Open++
		n.UnderWay += s.underWay()
	}
}
