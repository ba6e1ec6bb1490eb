package pathdb

import (
	"sync"
	"time"
)

// pair is the source and the destination of a query.
type pair struct{ src, dst IA }

// nextQueries are the times of next queries. Its zero value has none.
type nextQueries struct {
	lock  sync.Mutex
	times map[pair]time.Time
}

func (q *nextQueries) get(of pair) time.Time {
	q.lock.Lock()
	defer q.lock.Unlock()
	return q.times[of]
}

// isNews answers whether a time is later than one that is noted, which is the zero time where none is.
func isNews(noted, next time.Time) bool {
	return noted.IsZero() || next.After(noted)
}

// put notes a time where it is later than the one that is noted, and answers whether it is.
func (q *nextQueries) put(of pair, next time.Time) bool {
	q.lock.Lock()
	defer q.lock.Unlock()
	if !isNews(q.times[of], next) {
		return false
	}
	if q.times == nil {
		q.times = map[pair]time.Time{}
	}
	q.times[of] = next
	return true
}
