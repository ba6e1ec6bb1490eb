package calls

import (
	"bytes"
	"context"
	"fmt"
	"sort"
	"testing"
	"time"

	"google.golang.org/protobuf/proto"

	"pathd"
	"pathd/segmentspb"
)

// pageOf is a pathd that answers each list with these bytes.
type pageOf []byte

func (p pageOf) Ask(context.Context, pathd.Kind, []byte) ([]byte, error) { return p, nil }

// sample answers the bytes of a response of down segments from one AS to another, in the order of their
// ids: those from one number to another of so many.
func sample(t testing.TB, from, to, count int) []byte {
	byID := map[string]*segmentspb.PathSegment{}
	var ids []string
	for number := 1; number <= count; number++ {
		path, err := pathd.ParsePath(fmt.Sprintf("1-ff00:0:110 %d>2 1-ff00:0:111", number))
		if err != nil {
			t.Fatal(err)
		}
		segment, err := pathd.EncodeSegment(path, time.Unix(4_000_000_000, 0), nil)
		if err != nil {
			t.Fatal(err)
		}
		id := path.ID()
		ids = append(ids, string(id[:]))
		byID[string(id[:])] = segment
	}
	sort.Strings(ids)
	list := new(segmentspb.Segments)
	for _, id := range ids[from:to] {
		list.Segments = append(list.Segments, byID[id])
	}
	out, err := proto.Marshal(&segmentspb.SegmentsResponse{Segments: map[int32]*segmentspb.Segments{int32(pathd.Down): list}})
	if err != nil {
		t.Fatal(err)
	}
	return out
}

// segmentsOf answers how many segments a response has.
func segmentsOf(response *segmentspb.SegmentsResponse) (count int) {
	for _, list := range response.Segments {
		count += len(list.GetSegments())
	}
	return count
}

// FuzzPages has whatever pathd answers to a lookup and to its lists give a response that begins with
// what was found, and has no more segments than it may.
func FuzzPages(f *testing.F) {
	const most = 70
	request, err := proto.Marshal(&segmentspb.SegmentsRequest{SrcIsdAs: 1, DstIsdAs: 2})
	if err != nil {
		f.Fatal(err)
	}
	f.Add(sample(f, 0, 3, 80), []byte{0})
	f.Add(sample(f, 0, 64, 80), append([]byte{0}, sample(f, 64, 68, 80)...))
	f.Add(sample(f, 0, 64, 80), append([]byte{1}, sample(f, 64, 80, 80)...))
	f.Add(sample(f, 0, 64, 80), append([]byte{1}, sample(f, 3, 9, 80)...))
	// The type comes twice, and its second list has no segments: that is the one which counts.
	f.Add(append(sample(f, 0, 64, 80), 0x0a, 0x04, 0x08, 0x02, 0x12, 0x00), []byte{0})
	f.Fuzz(func(t *testing.T, found, page []byte) {
		before, after := new(segmentspb.SegmentsResponse), new(segmentspb.SegmentsResponse)
		isRead := proto.Unmarshal(found, before) == nil
		if isRead && countOf(found) < segmentsOf(before) {
			t.Fatalf("%d segments of %d are counted", countOf(found), segmentsOf(before))
		}
		p := &pages{lists: lists{pathd: pageOf(page)}, most: most}
		response := p.complete(context.Background(), request, found)
		got := response.Body
		if bytes.Equal(got, found) {
			return
		}
		if err := proto.Unmarshal(got, after); err != nil || !isRead || len(after.Segments) != len(before.Segments) {
			t.Fatal(err)
		}
		for kind, list := range before.Segments {
			count := len(list.GetSegments())
			all := after.Segments[kind].GetSegments()
			if len(all) < count || len(all) > count && len(all) > most ||
				!proto.Equal(list, &segmentspb.Segments{Segments: all[:count]}) {
				t.Fatalf("%d segments of %d", len(all), count)
			}
		}
	})
}
