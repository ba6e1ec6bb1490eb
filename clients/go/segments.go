package pathd

import (
	"crypto/sha256"
	"encoding/binary"
	"errors"
	"fmt"
	"time"

	"google.golang.org/protobuf/proto"
	pb "pathd/segmentspb"
)

// Types of segments, in short.
const (
	Up   = pb.SegmentType_SEGMENT_TYPE_UP
	Down = pb.SegmentType_SEGMENT_TYPE_DOWN
	Core = pb.SegmentType_SEGMENT_TYPE_CORE
)

// Of the hop fields that EncodeSegment makes. A segment expires 64 times 337.5 seconds after its
// timestamp. Of a MAC pathd checks alone that it has six bytes.
const (
	expTime = 63
	mtu     = 1472
	macSize = 6
)

// Segment is what a PathSegment says, read from the signed bytes of its entries.
type Segment struct {
	Path    Path
	Made    time.Time // its timestamp, in whole seconds
	Expires time.Time // with the first of its hop entries
}

// ID answers the segment's id.
func (s Segment) ID() [32]byte {
	return s.Path.ID()
}

// DecodeSegment reads a segment. It doesn't look at signatures.
func DecodeSegment(segment *pb.PathSegment) (Segment, error) {
	var info pb.SegmentInformation
	if err := proto.Unmarshal(segment.GetSegmentInfo(), &info); err != nil {
		return Segment{}, fmt.Errorf("pathd: segment_info: %w", err)
	}
	if len(segment.GetAsEntries()) == 0 {
		return Segment{}, errors.New("pathd: a segment without entries")
	}
	read, least := Segment{Made: time.Unix(info.GetTimestamp(), 0).UTC()}, ^uint32(0)
	for number, entry := range segment.GetAsEntries() {
		body, err := decodeEntry(entry)
		if err != nil {
			return Segment{}, fmt.Errorf("pathd: entry %d: %w", number, err)
		}
		field := body.GetHopEntry().GetHopField()
		ingress, egress := uint16(field.GetIngress()), uint16(field.GetEgress())
		read.Path = append(read.Path, Hop{IsdAs(body.GetIsdAs()), ingress, egress})
		if field.GetExpTime() < least {
			least = field.GetExpTime()
		}
	}
	read.Expires = read.Made.Add(time.Duration(675*(1+uint64(least))) * (time.Second / 2))
	return read, nil
}

func decodeEntry(entry *pb.ASEntry) (*pb.ASEntrySignedBody, error) {
	var signed pb.HeaderAndBody
	if err := proto.Unmarshal(entry.GetSigned().GetHeaderAndBody(), &signed); err != nil {
		return nil, err
	}
	body := new(pb.ASEntrySignedBody)
	return body, proto.Unmarshal(signed.GetBody(), body)
}

// EncodeSegment answers the segment with these hops, made at a time, of which the whole seconds count.
// Where there is a key the entries have the signatures of the test profile.
func EncodeSegment(path Path, made time.Time, key []byte) (*pb.PathSegment, error) {
	info, err := proto.Marshal(&pb.SegmentInformation{Timestamp: made.Unix(), SegmentId: 1})
	if err != nil {
		return nil, err
	}
	segment, covered := &pb.PathSegment{SegmentInfo: info}, [][]byte{info}
	for number, hop := range path {
		next := IsdAs(0)
		if number+1 < len(path) {
			next = path[number+1].IsdAs
		}
		signed, err := encodeEntry(hop, next)
		if err != nil {
			return nil, err
		}
		var signature []byte
		if key != nil {
			signature = keyedSignature(key, signed, covered)
		}
		entry := &pb.ASEntry{Signed: &pb.SignedMessage{HeaderAndBody: signed, Signature: signature}}
		segment.AsEntries = append(segment.AsEntries, entry)
		covered = append(covered, signed, signature)
	}
	return segment, nil
}

func encodeEntry(hop Hop, next IsdAs) ([]byte, error) {
	field := &pb.HopField{
		Ingress: uint64(hop.Ingress), Egress: uint64(hop.Egress), ExpTime: expTime, Mac: make([]byte, macSize),
	}
	body, err := proto.Marshal(&pb.ASEntrySignedBody{
		IsdAs: uint64(hop.IsdAs), NextIsdAs: uint64(next), HopEntry: &pb.HopEntry{HopField: field}, Mtu: mtu,
	})
	if err != nil {
		return nil, err
	}
	return proto.Marshal(&pb.HeaderAndBody{Body: body})
}

// keyedSignature answers the signature of the test profile, which is no standard's: SHA-256 over
// pieces, each after its length in 8 bytes.
func keyedSignature(key, signed []byte, covered [][]byte) []byte {
	hash := sha256.New()
	for _, piece := range append([][]byte{key, signed}, covered...) {
		hash.Write(binary.BigEndian.AppendUint64(nil, uint64(len(piece))))
		hash.Write(piece)
	}
	return hash.Sum(nil)
}

// Registration answers the request that registers segments of one type.
func Registration(kind pb.SegmentType, segments ...*pb.PathSegment) *pb.SegmentsRegistrationRequest {
	return &pb.SegmentsRegistrationRequest{
		Segments: map[int32]*pb.Segments{int32(kind): {Segments: segments}},
	}
}
