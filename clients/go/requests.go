package pathd

import (
	"encoding/binary"
	"fmt"

	"google.golang.org/protobuf/proto"
	pb "pathd/segmentspb"
)

// Kind is the kind of a request. A reply has the kind of its request and 0x80.
type Kind byte

// The kinds of requests. The body of a registration is a SegmentsRegistrationRequest, that of a lookup
// a SegmentsRequest, that of a purge its moment in 8 bytes, that of a removal a type in a byte and an
// id, and that of a list is made by ListBody.
const (
	KindRegister Kind = 1
	KindLookup   Kind = 2
	KindPurge    Kind = 3
	KindRemove   Kind = 4
	KindList     Kind = 5
)

// isCommand answers whether a request changes what there is, and waits for the device.
func (k Kind) isCommand() bool {
	return k != KindLookup && k != KindList
}

// The kinds as bytes, what the kind of a reply has in addition, and the kind of a refusal.
const (
	register, lookup = byte(KindRegister), byte(KindLookup)
	purge, remove    = byte(KindPurge), byte(KindRemove)

	replied, refused byte = 0x80, 0xff
)

// MostFound is how many segments a lookup finds at most, and a page of a list has.
const MostFound = 64

// The most bytes of the body of a request, and of that of a reply.
const (
	MostRequest = 131_072
	MostReply   = 1_114_111
)

const (
	lengthSize = 4              // the bytes of a frame's length
	frameHead  = lengthSize + 1 // and with its kind
	ackSize    = 24             // the bytes of the body of an acknowledgement
)

// Ack is the reply to a command that was taken: its place among the commands, and how many segments
// it inserted, updated, kept out and dropped.
type Ack struct {
	Place                           uint64
	Inserted, Updated, Kept, Purged uint32
}

// ReadAck reads the body of the reply to a registration, a purge or a removal.
func ReadAck(body []byte) (Ack, error) {
	if len(body) != ackSize {
		return Ack{}, fmt.Errorf("%w: an acknowledgement of %d bytes", ErrReply, len(body))
	}
	number := func(at int) uint32 { return binary.BigEndian.Uint32(body[at:]) }
	return Ack{binary.BigEndian.Uint64(body), number(8), number(12), number(16), number(20)}, nil
}

func ackBody(ack Ack) []byte {
	body := binary.BigEndian.AppendUint64(nil, ack.Place)
	for _, it := range []uint32{ack.Inserted, ack.Updated, ack.Kept, ack.Purged} {
		body = binary.BigEndian.AppendUint32(body, it)
	}
	return body
}

// ReadFound reads the body of the reply to a lookup: segments of the three types that there are.
func ReadFound(body []byte) (*pb.SegmentsResponse, error) {
	found := new(pb.SegmentsResponse)
	if err := proto.Unmarshal(body, found); err != nil {
		return nil, fmt.Errorf("%w: %v", ErrReply, err)
	}
	for kind := range found.Segments {
		if kind < int32(Up) || kind > int32(Core) {
			return nil, fmt.Errorf("%w: segments of the type %d", ErrReply, kind)
		}
	}
	return found, nil
}

// MayHaveMore answers whether there may be more segments than a lookup has found, which finds no more than
// MostFound. ListPage and List give the others.
func MayHaveMore(found *pb.SegmentsResponse) bool {
	count := 0
	for _, list := range found.GetSegments() {
		count += len(list.GetSegments())
	}
	return count >= MostFound
}

// isReply answers whether the content of a frame that is no refusal is a reply to a request of a kind.
func isReply(kind byte, content []byte) bool {
	return content[0] == replied|kind && (!Kind(kind).isCommand() || len(content) == 1+ackSize)
}

func registrationBody(segments *pb.SegmentsRegistrationRequest) ([]byte, error) {
	return proto.MarshalOptions{Deterministic: true}.Marshal(segments)
}

func lookupBody(source, destination IsdAs) ([]byte, error) {
	return proto.Marshal(&pb.SegmentsRequest{SrcIsdAs: uint64(source), DstIsdAs: uint64(destination)})
}

func purgeBody(moment Moment) []byte {
	return binary.BigEndian.AppendUint64(nil, uint64(moment))
}

func removalBody(kind pb.SegmentType, id [32]byte) []byte {
	return append([]byte{byte(kind)}, id[:]...)
}

// ListBody answers the body of a list: the type in a byte, the start and the end in 8 bytes each, and
// then the id after which the page begins, where there is one.
func ListBody(kind pb.SegmentType, start, end IsdAs, after *[32]byte) []byte {
	body := binary.BigEndian.AppendUint64([]byte{byte(kind)}, uint64(start))
	body = binary.BigEndian.AppendUint64(body, uint64(end))
	if after != nil {
		body = append(body, after[:]...)
	}
	return body
}
