package pathd

import (
	"bytes"
	"context"
	"errors"
	"fmt"
	"io"

	"google.golang.org/protobuf/proto"
	pb "pathd/segmentspb"
)

// Page has the segments of a page of a list, 64 at most, in the order of their ids. More says whether
// further ones follow: then there is a last one, and the list goes on after its id.
type Page struct {
	Segments []*pb.PathSegment
	More     bool
}

// Last answers the id of the last segment, which there has to be.
func (p Page) Last() ([32]byte, error) {
	last, err := DecodeSegment(p.Segments[len(p.Segments)-1])
	return last.ID(), err
}

// ReadPage reads the body of the reply to a list of a type after an id, or of all where the id is nil.
// A page that others follow leads on: the id of its last segment comes after the one given.
func ReadPage(kind pb.SegmentType, after *[32]byte, body []byte) (Page, error) {
	if len(body) == 0 || body[0] > 1 {
		return Page{}, fmt.Errorf("%w: no page in %d bytes", ErrReply, len(body))
	}
	var listed pb.SegmentsResponse
	if err := proto.Unmarshal(body[1:], &listed); err != nil {
		return Page{}, fmt.Errorf("%w: %v", ErrReply, err)
	}
	page := Page{listed.Segments[int32(kind)].GetSegments(), body[0] == 1}
	delete(listed.Segments, int32(kind))
	if len(listed.Segments) > 0 {
		return Page{}, fmt.Errorf("%w: a page of another type", ErrReply)
	}
	if page.More && !page.leadsOn(after) {
		return Page{}, fmt.Errorf("%w: a page that leads to no other", ErrReply)
	}
	return page, nil
}

func (p Page) leadsOn(after *[32]byte) bool {
	if len(p.Segments) == 0 {
		return false
	}
	last, err := p.Last()
	return err == nil && (after == nil || bytes.Compare(last[:], after[:]) > 0)
}

// ask asks for the body of the reply to a request.
type ask func(ctx context.Context, kind Kind, body []byte) ([]byte, error)

func (f ask) page(ctx context.Context, kind pb.SegmentType, start, end IsdAs, after *[32]byte) (Page, error) {
	reply, err := f(ctx, KindList, ListBody(kind, start, end, after))
	if err != nil {
		return Page{}, unlisted(err, after)
	}
	return ReadPage(kind, after, reply)
}

// unlisted answers the error of a page after an id. A server without lists ends the connection where the
// reply to a first page would begin.
func unlisted(err error, after *[32]byte) error {
	if after == nil && errors.Is(err, io.EOF) {
		return fmt.Errorf("%w: the server does not list: run it with --lists", err)
	}
	return err
}

func (f ask) all(ctx context.Context, kind pb.SegmentType, start, end IsdAs) func(func(*pb.PathSegment, error) bool) {
	return func(yield func(*pb.PathSegment, error) bool) {
		var after *[32]byte
		for {
			page, err := f.page(ctx, kind, start, end, after)
			for _, it := range page.Segments {
				if !yield(it, nil) {
					return
				}
			}
			if err == nil && page.More {
				var last [32]byte
				last, err = page.Last()
				after = &last
			}
			if err != nil {
				yield(nil, err)
			}
			if err != nil || !page.More {
				return
			}
		}
	}
}

// ListPage asks for the segments of a type from a start to an end: the first 64 of those whose ids come
// after one, or of all where it is nil, in the order of their ids. A part of a side that is 0 is any.
// The id need not be that of a segment.
func (c *Client) ListPage(ctx context.Context, kind pb.SegmentType, start, end IsdAs, after *[32]byte) (Page, error) {
	return ask(c.Ask).page(ctx, kind, start, end, after)
}

// List answers all segments of a type from a start to an end, in the order of their ids, to a function
// that answers whether it wants more. An error is the last that it gets. From Go 1.23 on it is
//
//	for segment, err := range client.List(ctx, pathd.Down, 0, 0) {
//
// Pages are asked for as they are needed, and other calls may be made between. A segment that is
// registered or dropped meanwhile may be among them or not, and every other one comes once.
func (c *Client) List(ctx context.Context, kind pb.SegmentType, start, end IsdAs) func(yield func(*pb.PathSegment, error) bool) {
	return ask(c.Ask).all(ctx, kind, start, end)
}

// ListPage asks one server, as Lookup does, for what Client.ListPage asks for.
func (s *Servers) ListPage(ctx context.Context, kind pb.SegmentType, start, end IsdAs, after *[32]byte) (Page, error) {
	return ask(s.query).page(ctx, kind, start, end, after)
}

// List answers what Client.List does. It asks one server for each page, as Lookup does.
func (s *Servers) List(ctx context.Context, kind pb.SegmentType, start, end IsdAs) func(yield func(*pb.PathSegment, error) bool) {
	return ask(s.query).all(ctx, kind, start, end)
}
