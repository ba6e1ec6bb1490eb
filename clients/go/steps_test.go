package pathd

import (
	"encoding/binary"
	"errors"
	"testing"
	"time"
)

// The moments of a purge in steps: how many segments its commands drop in turn, and how far before the
// last moment each one's is.
var stepCases = []struct {
	last   Moment
	drops  []uint32
	before []Moment
}{
	{3400000000, make([]uint32, 5), []Moment{262144, 229376, 200704, 175616, 153664, 134456}},
	{
		20000, []uint32{0, 256, 1024, 1025, 255, 5000, 512, 100000, 1500, 3},
		[]Moment{20000, 17500, 15313, 13399, 12761, 11485, 11358, 11231, 11230, 11229, 11227},
	},
	{7, []uint32{4294967295, 0, 0}, []Moment{7, 6, 4, 0}},
	{0, nil, []Moment{0}},
	{1<<64 - 1, []uint32{0}, []Moment{262144, 229376}},
}

func TestStepsOfAPurge(t *testing.T) {
	for _, c := range stepCases {
		at := firstStep(c.last)
		for i, before := range c.before {
			if at.moment != c.last-before {
				t.Errorf("step %d of %d: %d before, and not %d", i, c.last, c.last-at.moment, before)
			}
			if i < len(c.drops) {
				at = at.next(c.drops[i], c.last)
			}
		}
	}
	for _, last := range []Moment{262144, 3400000000, 1<<64 - 1} {
		count := 1
		for at := firstStep(last); at.moment != last; count++ {
			at = at.next(0, last)
		}
		if count != 35 {
			t.Errorf("%d commands by %d", count, last)
		}
	}
}

func TestPurgeInSteps(t *testing.T) {
	last := MomentOf(time.Unix(1700000000, 0))
	for _, refused := range []bool{false, true} {
		client, server, ctx := open(t)
		done := make(chan []uint32)
		var fault error
		go func() {
			var dropped []uint32
			client.PurgeInSteps(ctx, last.Time())(func(ack Ack, err error) bool {
				if fault = err; err == nil {
					dropped = append(dropped, ack.Purged)
				}
				return len(dropped) < 3
			})
			done <- dropped
		}()
		for i, before := range []Moment{262144, 229376, 200704} {
			kind, body := server.next()
			if kind != purge || Moment(binary.BigEndian.Uint64(body)) != last-before {
				t.Errorf("command %d: kind %d, body %x", i, kind, body)
			}
			if refused && i == 2 {
				server.write(0xff, byte(Full))
				break
			}
			server.write(purgedContent(uint64(i), uint32(i))...)
		}
		dropped := <-done
		if refused != errors.Is(fault, Full) || refused != (len(dropped) == 2) {
			t.Errorf("%v, %v", dropped, fault)
		}
	}
}

// The next step of several servers is by the one that has dropped the most.
func TestPurgeInStepsOfServers(t *testing.T) {
	c, number := stepCases[1], 0
	none := running(t, func([]byte) []byte { return purgedContent(0, 0) })
	most := running(t, func([]byte) []byte { // of one session, so never at one time
		number++
		return purgedContent(0, append(c.drops, 0)[number-1])
	})
	servers, ctx := serversOf(t, Options{}, none, most)
	left := len(c.before)
	servers.PurgeInSteps(ctx, c.last.Time())(func(results []Result, err error) bool {
		if err != nil || len(results) != 2 {
			t.Errorf("%v, %v", results, err)
		}
		left--
		return left > 0
	})
	for _, it := range []*store{none, most} {
		commands, _ := it.came()
		if len(commands) != len(c.before) {
			t.Fatalf("%d commands", len(commands))
		}
		for i, content := range commands {
			if moment := Moment(binary.BigEndian.Uint64(content[1:])); moment != c.last-c.before[i] {
				t.Errorf("command %d: by %d", i, moment)
			}
		}
	}
}

// purgedContent is the content of the reply to a purge.
func purgedContent(place uint64, dropped uint32) []byte {
	content := make([]byte, 25)
	content[0] = 0x83
	binary.BigEndian.PutUint64(content[1:], place)
	binary.BigEndian.PutUint32(content[21:], dropped)
	return content
}
