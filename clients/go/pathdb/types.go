package pathdb

import (
	"time"

	"pathd"
	pb "pathd/segmentspb"
)

// IA is the number of an AS and of its ISD, the ISD in the upper 16 bits, as addr.IA. In Params a part that
// is 0 covers every number.
type IA = pathd.IsdAs

// Type is the type of a segment, as seg.Type and with its numbers.
type Type = pb.SegmentType

// The types of segments.
const (
	TypeUp   = pathd.Up
	TypeDown = pathd.Down
	TypeCore = pathd.Core
)

// Meta is a segment of a type, as seg.Meta.
type Meta struct {
	Type    Type
	Segment *pb.PathSegment
}

// InsertStats are how many segments were inserted and how many replaced an older one.
type InsertStats struct {
	Inserted, Updated int
}

// IntfSpec is an interface of an AS, as query.IntfSpec.
type IntfSpec struct {
	IA   IA
	IfID uint16
}

// Params say which segments are asked for, as query.Params. Each field bounds them further; an empty one
// does not. A segment is asked for where one element of each field that is not empty has it.
type Params struct {
	// Ids, or their first bytes: at least one.
	SegIDs   [][]byte
	SegTypes []Type
	// Groups of hidden paths: every segment is in NullHPGroupID alone.
	HPGroupIDs []uint64
	// Interfaces by which a path enters or leaves an AS of the segment.
	Intfs []*IntfSpec
	// The first and the last AS of the segment.
	StartsAt, EndsAt []IA
	// The segments whose LastUpdate is later.
	MinLastUpdate *time.Time
}

// Result is a segment that was found, as query.Result.
type Result struct {
	Seg *pb.PathSegment
	// The segment's timestamp: a server keeps no time of a registration.
	LastUpdate time.Time
	HPGroupIDs []uint64
	Type       Type
}

// Results are in the order of their types, and of one type in that of their ids.
type Results []*Result

// NullHPGroupID is the group of segments that are not hidden, the only one that a Backend has.
const NullHPGroupID uint64 = 0
