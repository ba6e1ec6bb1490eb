package calls

import (
	"context"
	"sync/atomic"

	"google.golang.org/protobuf/encoding/protowire"
	"google.golang.org/protobuf/proto"

	"pathd"
	"pathd/gateway/internal/numbers"
	"pathd/segmentspb"
)

// MostResponse is how many bytes a response may have that pages are added to: clients of gRPC take no
// more, unless they are told to.
const MostResponse = 4 << 20

// pages adds to what a lookup has found where that may be cut.
type pages struct {
	lists                         lists
	most                          int // segments of a response
	taken, failed, left, unlisted atomic.Uint64
}

// complete answers the response to a lookup that found these segments. Where there are as many as a
// lookup finds at most, further ones are asked for, up to the bounds. Where a page has no reply the
// response has what was found before. It is marked where more segments match, or may match.
func (p *pages) complete(ctx context.Context, request, found []byte) Response {
	if countOf(found) < pathd.MostFound {
		return Response{Body: found}
	}
	cut := Response{Body: found, More: true}
	asked, response := new(segmentspb.SegmentsRequest), new(segmentspb.SegmentsResponse)
	if p.most <= pathd.MostFound || proto.Unmarshal(request, asked) != nil ||
		proto.Unmarshal(found, response) != nil || len(response.Segments) != 1 {
		return cut
	}
	more := false
	for kind, list := range response.Segments {
		if len(list.GetSegments()) < pathd.MostFound { // where the type comes twice, its last list counts
			return cut
		}
		more = p.add(ctx, asked, segmentspb.SegmentType(kind), list, len(found))
	}
	completed, err := proto.Marshal(response)
	if err != nil {
		return cut
	}
	return Response{Body: completed, More: more}
}

// add adds pages to the segments of a type, which have so many bytes, and answers whether there may be
// more of them.
func (p *pages) add(ctx context.Context, asked *segmentspb.SegmentsRequest, kind segmentspb.SegmentType, list *segmentspb.Segments, size int) bool {
	// A lookup finds down segments from its source on, and the others from its destination on.
	start, end := pathd.IsdAs(asked.DstIsdAs), pathd.IsdAs(asked.SrcIsdAs)
	if kind == pathd.Down {
		start, end = end, start
	}
	for page := (pathd.Page{Segments: list.Segments, More: true}); page.More; {
		room := p.most - len(list.Segments)
		if room == 0 {
			p.left.Add(1)
			return true
		}
		next, reply, err := p.after(ctx, kind, start, end, page)
		switch {
		case err == errNoLists:
			p.unlisted.Add(1)
			return true
		case err != nil:
			p.failed.Add(1)
			return true
		}
		if size += len(reply); size > MostResponse {
			p.left.Add(1)
			return true
		}
		p.taken.Add(1)
		if len(next.Segments) > room {
			list.Segments = append(list.Segments, next.Segments[:room]...)
			p.left.Add(1)
			return true
		}
		list.Segments = append(list.Segments, next.Segments...)
		page = next
	}
	return false
}

// after answers the page that comes after one, and the body that has it.
func (p *pages) after(ctx context.Context, kind segmentspb.SegmentType, start, end pathd.IsdAs, page pathd.Page) (pathd.Page, []byte, error) {
	last, err := page.Last()
	if err != nil {
		return pathd.Page{}, nil, err
	}
	reply, err := p.lists.ask(ctx, pathd.ListBody(kind, start, end, &last))
	if err != nil {
		return pathd.Page{}, nil, err
	}
	next, err := pathd.ReadPage(kind, &last, reply)
	return next, reply, err
}

// writeNumbers writes what became of pages.
func (p *pages) writeNumbers(page *numbers.Page) {
	const name = "pathd_gateway_pages_total"
	page.Counter(name, "Pages that were added to lookups, that had no reply, that were left out as there are too many, and that pathd does not list.")
	page.Row(name, `result="taken"`, float64(p.taken.Load()))
	page.Row(name, `result="failed"`, float64(p.failed.Load()))
	page.Row(name, `result="left"`, float64(p.left.Load()))
	page.Row(name, `result="unlisted"`, float64(p.unlisted.Load()))
}

// countOf answers how many segments the body of a lookup's reply has, which is a SegmentsResponse.
func countOf(found []byte) (count int) {
	eachMessage(found, 1, func(entry []byte) {
		eachMessage(entry, 2, func(segments []byte) {
			eachMessage(segments, 1, func([]byte) { count++ })
		})
	})
	return count
}

// eachMessage hands on the messages of a field, up to what can't be read.
func eachMessage(content []byte, number protowire.Number, each func([]byte)) {
	for len(content) > 0 {
		field, kind, size := protowire.ConsumeTag(content)
		if size < 0 {
			return
		}
		content = content[size:]
		if size = protowire.ConsumeFieldValue(field, kind, content); size < 0 {
			return
		}
		if message, _ := protowire.ConsumeBytes(content); field == number && kind == protowire.BytesType {
			each(message)
		}
		content = content[size:]
	}
}
