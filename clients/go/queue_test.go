package pathd

import (
	"reflect"
	"testing"
)

func numbered(kinds ...byte) (listed []*delivery) {
	for number, kind := range kinds {
		listed = append(listed, newDelivery(kind, make([]byte, number), 1))
	}
	return listed
}

func filled(most, mostBytes int, listed []*delivery) *queue {
	q := &queue{most: most, mostBytes: mostBytes}
	for _, d := range listed {
		q.put(d)
	}
	return q
}

func TestPurgesAreApart(t *testing.T) {
	listed := numbered(register, remove, purge, purge, register)
	q := filled(9, 999, listed)
	for _, wanted := range [][]*delivery{listed[:2], listed[2:4], listed[4:]} {
		if front := q.begin(window); !reflect.DeepEqual(front, wanted) {
			t.Errorf("%v", front)
		}
		q.end(len(wanted))
	}
	if front := q.begin(window); len(front) != 0 || q.bytes != 0 {
		t.Errorf("%v, %d bytes", front, q.bytes)
	}
	if front := filled(9, 999, listed).begin(1); !reflect.DeepEqual(front, listed[:1]) {
		t.Errorf("%v", front)
	}
}

func TestWhatIsNotSettledStaysInFront(t *testing.T) {
	listed := numbered(register, register, register, register)
	q := filled(9, 999, listed)
	q.begin(3)
	q.end(1)
	if front := q.begin(window); !reflect.DeepEqual(front, listed[1:]) {
		t.Errorf("%v", front)
	}
}

func TestBoundsOfAQueue(t *testing.T) {
	listed := numbered(register, remove, purge) // of 5, 6 and 7 bytes
	cases := []struct{ most, mostBytes, underWay, dropped, bytes int }{
		{2, 99, 0, 1, 13}, {9, 13, 0, 1, 13}, {9, 12, 0, 2, 7}, {2, 99, 1, 1, 12}, {2, 99, 2, 0, 11},
	}
	for _, c := range cases {
		q := filled(c.most, c.mostBytes, listed[:2])
		q.underWay = c.underWay
		wanted := listed[c.underWay : c.underWay+c.dropped]
		if c.dropped == 0 {
			wanted = listed[2:]
		}
		if q.hasRoomFor(listed[2]) {
			t.Errorf("%v: there is room", c)
		}
		if dropped := q.put(listed[2]); !reflect.DeepEqual(dropped, wanted) || q.bytes != c.bytes {
			t.Errorf("%v: %v, %d bytes", c, dropped, q.bytes)
		}
	}
}
