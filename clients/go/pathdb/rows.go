package pathdb

import (
	"bytes"
	"sort"

	"pathd"
	pb "pathd/segmentspb"
)

// key is what two segments have in common of which one replaces the other: the type and the hops.
type key struct {
	kind Type
	id   id
}

// row is a segment with what it says.
type row struct {
	key
	pathd.Segment
	sent *pb.PathSegment
}

func newRow(kind Type, segment *pb.PathSegment) (row, error) {
	read, err := pathd.DecodeSegment(segment)
	if err != nil {
		return row{}, err
	}
	return row{key{kind, read.ID()}, read, segment}, nil
}

func (r row) start() IA {
	return r.Path[0].IsdAs
}

func (r row) end() IA {
	return r.Path[len(r.Path)-1].IsdAs
}

func (r row) hasInterface(of IntfSpec) bool {
	for _, hop := range r.Path {
		if hop.IsdAs == of.IA && (hop.Ingress == of.IfID || hop.Egress == of.IfID) {
			return true
		}
	}
	return false
}

// rows are segments of which no two have one key.
type rows map[key]row

// put puts a segment in, unless there is one of its key that is as new.
func (r rows) put(it row) InsertStats {
	old, isThere := r[it.key]
	switch {
	case !isThere:
		r[it.key] = it
		return InsertStats{Inserted: 1}
	case it.Made.After(old.Made):
		r[it.key] = it
		return InsertStats{Updated: 1}
	}
	return InsertStats{}
}

// keys answers the keys in their order.
func (r rows) keys() []key {
	keys := make([]key, 0, len(r))
	for it := range r {
		keys = append(keys, it)
	}
	sort.Slice(keys, func(one, other int) bool { return keys[one].isBefore(keys[other]) })
	return keys
}

func (k key) isBefore(other key) bool {
	if k.kind != other.kind {
		return k.kind < other.kind
	}
	return bytes.Compare(k.id[:], other.id[:]) < 0
}
