package numbers

import (
	"fmt"
	"strconv"
	"sync/atomic"
	"time"

	"google.golang.org/grpc/codes"
)

// Protocol is what a call came by.
type Protocol int

// The protocols.
const (
	GRPC Protocol = iota
	Connect
)

var protocols = [...]string{"grpc", "connect"}

const statuses = int(codes.Unauthenticated) + 1

// bounds are the upper bounds of the histogram's buckets.
var bounds = [...]time.Duration{
	500 * time.Microsecond, time.Millisecond, 2500 * time.Microsecond, 5 * time.Millisecond,
	10 * time.Millisecond, 25 * time.Millisecond, 50 * time.Millisecond, 100 * time.Millisecond,
	250 * time.Millisecond, 500 * time.Millisecond, time.Second, 2500 * time.Millisecond,
	5 * time.Second, 10 * time.Second,
}

// Method counts the calls of a method.
type Method struct {
	name    string
	ends    [len(protocols)][statuses]atomic.Uint64
	buckets [len(bounds) + 1]atomic.Uint64
	total   atomic.Int64 // nanoseconds
}

// NewMethod answers the numbers of a method without calls.
func NewMethod(name string) *Method { return &Method{name: name} }

// Count counts a call that has ended by a status.
func (m *Method) Count(by Protocol, status codes.Code, took time.Duration) {
	if int(status) >= statuses {
		status = codes.Unknown
	}
	m.ends[by][status].Add(1)
	m.total.Add(int64(took))
	at := 0
	for at < len(bounds) && took > bounds[at] {
		at++
	}
	m.buckets[at].Add(1)
}

// WriteCalls writes the numbers of methods.
func WriteCalls(p *Page, methods []*Method) {
	const ends, times = "pathd_gateway_calls_total", "pathd_gateway_call_seconds"
	p.Counter(ends, "Calls that have ended, by method, protocol and gRPC's number of the status.")
	for _, m := range methods {
		for by := range m.ends {
			for status := range m.ends[by] {
				if n := m.ends[by][status].Load(); n > 0 || status == 0 {
					labels := fmt.Sprintf("method=%q,protocol=%q,status=\"%d\"", m.name, protocols[by], status)
					p.Row(ends, labels, float64(n))
				}
			}
		}
	}
	p.Histogram(times, "Seconds from the first byte of a call to its end, by method.")
	for _, m := range methods {
		m.writeTimes(p, times)
	}
}

func (m *Method) writeTimes(p *Page, name string) {
	count := uint64(0)
	for at := range m.buckets {
		count += m.buckets[at].Load()
		bound := "+Inf"
		if at < len(bounds) {
			bound = strconv.FormatFloat(bounds[at].Seconds(), 'g', -1, 64)
		}
		p.Row(name+"_bucket", fmt.Sprintf("method=%q,le=%q", m.name, bound), float64(count))
	}
	labels := fmt.Sprintf("method=%q", m.name)
	p.Row(name+"_sum", labels, time.Duration(m.total.Load()).Seconds())
	p.Row(name+"_count", labels, float64(count))
}
