package pathd

// queue has the commands that wait for one server, in the order in which they are sent. Those at its
// front are under way, and none of them is dropped.
type queue struct {
	most, mostBytes int

	waiting  []*delivery
	underWay int
	bytes    int
}

func (q *queue) hasRoomFor(d *delivery) bool {
	return len(q.waiting) < q.most && q.bytes+d.size() <= q.mostBytes
}

// put puts a command at the end, and answers those that are dropped to make room, oldest first: the
// new one among them where there is no other way.
func (q *queue) put(d *delivery) (dropped []*delivery) {
	for !q.hasRoomFor(d) && len(q.waiting) > q.underWay {
		oldest := q.waiting[q.underWay]
		q.waiting = append(q.waiting[:q.underWay], q.waiting[q.underWay+1:]...)
		q.bytes -= oldest.size()
		dropped = append(dropped, oldest)
	}
	if !q.hasRoomFor(d) {
		return append(dropped, d)
	}
	q.waiting = append(q.waiting, d)
	q.bytes += d.size()
	return dropped
}

// begin answers the front of the queue, at most so many commands: purges alone, or none. They are
// under way. Some of them may be carried out, and after that all of them in their order: the rows are
// those that all of them leave.
func (q *queue) begin(most int) []*delivery {
	count := 0
	for count < len(q.waiting) && count < most && (q.waiting[count].kind == purge) == (q.waiting[0].kind == purge) {
		count++
	}
	q.underWay = count
	return append([]*delivery(nil), q.waiting[:count]...)
}

// end takes out the first commands under way, which are settled. The others wait again.
func (q *queue) end(settled int) {
	for _, d := range q.waiting[:settled] {
		q.bytes -= d.size()
	}
	q.waiting = append([]*delivery(nil), q.waiting[settled:]...)
	q.underWay = 0
}
