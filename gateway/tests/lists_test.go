package tests

import (
	"bytes"
	"context"
	"fmt"
	"sort"
	"sync"
	"testing"
	"time"

	"google.golang.org/grpc"
	"google.golang.org/grpc/metadata"
	"google.golang.org/protobuf/proto"

	client "pathd"
	control "pathd/gateway/internal/pb/controlplanepb"
	pki "pathd/gateway/internal/testpki"
	pb "pathd/segmentspb"
)

// many answers segments from the core AS to the leaf, in the order of their ids.
func many(t *testing.T, count int) []*pb.PathSegment {
	t.Helper()
	type made struct {
		id      [32]byte
		segment *pb.PathSegment
	}
	var all []made
	for number := 0; number < count; number++ {
		path, err := client.ParsePath(fmt.Sprintf("1-ff00:0:110 %d>2 1-ff00:0:111", number+1))
		pki.Must(t, err)
		segment, err := client.EncodeSegment(path, time.Unix(later, 0), nil)
		pki.Must(t, err)
		all = append(all, made{path.ID(), segment})
	}
	sort.Slice(all, func(i, j int) bool { return bytes.Compare(all[i].id[:], all[j].id[:]) < 0 })
	var segments []*pb.PathSegment
	for _, it := range all {
		segments = append(segments, it.segment)
	}
	return segments
}

// answerOf answers a SegmentsResponse of down segments.
func answerOf(segments []*pb.PathSegment) *pb.SegmentsResponse {
	if len(segments) == 0 {
		return new(pb.SegmentsResponse)
	}
	return &pb.SegmentsResponse{Segments: map[int32]*pb.Segments{int32(client.Down): {Segments: segments}}}
}

// lister plays a pathd with these down segments, and keeps the lists that came. page answers a list
// itself, where there is one.
func lister(t *testing.T, segments []*pb.PathSegment, page func() []byte) (address string, lists func() [][]byte) {
	var lock sync.Mutex
	var came [][]byte
	body := func(head []byte, some []*pb.PathSegment) []byte {
		out, _ := proto.Marshal(answerOf(some))
		return append(head, out...)
	}
	address = fake(t, func(content []byte) []byte {
		switch {
		case content[0] == 2 && len(content) > 1:
			if len(segments) > 64 {
				return body([]byte{0x82}, segments[:64])
			}
			return body([]byte{0x82}, segments)
		case content[0] != 5:
			return healthy(content)
		}
		lock.Lock()
		came = append(came, content)
		lock.Unlock()
		if page != nil {
			return page()
		}
		rest := segments
		for len(rest) > 0 {
			read, _ := client.DecodeSegment(rest[0])
			if id := read.ID(); bytes.Compare(id[:], content[18:]) > 0 {
				break
			}
			rest = rest[1:]
		}
		if len(rest) > 64 {
			return body([]byte{0x85, 1}, rest[:64])
		}
		return body([]byte{0x85, 0}, rest)
	})
	return address, func() [][]byte {
		lock.Lock()
		defer lock.Unlock()
		return append([][]byte(nil), came...)
	}
}

// marked makes a lookup, and answers whether its response is marked as one that may lack segments.
func marked(t *testing.T, ctx context.Context, conn *grpc.ClientConn) (*pb.SegmentsResponse, bool) {
	t.Helper()
	var trailer metadata.MD
	found, err := lookup(ctx, conn, grpc.Trailer(&trailer))
	pki.Must(t, err)
	mark := trailer.Get("pathd-more")
	if len(mark) > 1 || len(mark) == 1 && mark[0] != "true" {
		t.Error(trailer)
	}
	return found, len(mark) == 1
}

func TestALookupOfManySegmentsHasAllOfThem(t *testing.T) {
	for _, c := range []struct {
		count, answered, lists int
		more                   bool
		words                  []string
	}{
		{63, 63, 0, false, nil}, {64, 64, 1, false, nil}, {65, 65, 1, false, nil}, {200, 200, 3, false, nil}, {256, 256, 3, false, nil}, {300, 256, 3, true, nil},
		{300, 100, 1, true, []string{"--most-segments", "100"}}, {300, 64, 0, true, []string{"--most-segments", "64"}}, {63, 63, 0, false, []string{"--most-segments", "64"}},
	} {
		segments := many(t, c.count)
		address, lists := lister(t, segments, nil)
		at := gateway(t, address, c.words...).address
		conn, ctx := dial(t, at)
		found, more := marked(t, ctx, conn)
		if more != c.more || !proto.Equal(found, answerOf(segments[:c.answered])) {
			t.Errorf("%d: %d segments, more: %v", c.count, len(found.GetSegments()[2].GetSegments()), more)
		}
		came := lists()
		if len(came) != c.lists {
			t.Errorf("%d: %d lists", c.count, len(came))
		}
		for number, content := range came {
			read, _ := client.DecodeSegment(segments[64*number+63])
			id := read.ID()
			wanted := "\x05\x02\x00\x01\xff\x00\x00\x00\x01\x10\x00\x01\xff\x00\x00\x00\x01\x11" + string(id[:])
			if string(content) != wanted {
				t.Errorf("%d: % x", c.count, content)
			}
		}
		for name, by := range clients() {
			body, _ := proto.Marshal(&pb.SegmentsRequest{SrcIsdAs: core, DstIsdAs: leaf})
			code, header, _ := post(t, by, "http://"+at+lookupPath, body, "Content-Type", "application/proto")
			if mark := header.Get("pathd-more"); code != 200 || mark != map[bool]string{true: "true"}[c.more] {
				t.Errorf("%s, %d: %d, %q", name, c.count, code, mark)
			}
		}
	}
}

// TestAServerThatDoesNotList has lookups answered with what they find, marked, and others that share the
// sessions go on: pathd ends the session that asks for a list. The log says once what to do.
func TestAServerThatDoesNotList(t *testing.T) {
	segments := many(t, 100)
	address, lists := lister(t, segments, func() []byte { return nil })
	at := gateway(t, address, "--status", "127.0.0.1:0", "--lookups", "1")
	conn, ctx := dial(t, at.address)
	var wait sync.WaitGroup
	for caller := 0; caller < 4; caller++ {
		wait.Add(1)
		go func() {
			defer wait.Done()
			for call := 0; call < 25; call++ {
				if _, err := control.NewSegmentLookupServiceClient(conn).Segments(ctx, &pb.SegmentsRequest{SrcIsdAs: core, DstIsdAs: leaf}); err != nil {
					t.Error(err)
				}
			}
		}()
	}
	for call := 0; call < 50; call++ {
		if found, more := marked(t, ctx, conn); !more || !proto.Equal(found, answerOf(segments[:64])) {
			t.Errorf("%d segments, more: %v", len(found.GetSegments()[2].GetSegments()), more)
		}
	}
	wait.Wait()
	if count := at.log.count("the server does not list: run it with --lists"); count != 1 {
		t.Error(count, "lines: ", at.log)
	}
	if asked := len(lists()); asked > 16 { // two for each call that came before the first reply
		t.Error(asked, "lists")
	}
	rows := at.rows()
	for name, wanted := range map[string]string{
		`pathd_gateway_pages_total{result="unlisted"}`:          "150",
		`pathd_gateway_sessions_ended_total{pool="lookups"}`:    "0",
		`pathd_gateway_requests_repeated_total{pool="lookups"}`: "0",
	} {
		if rows[name] != wanted {
			t.Errorf("%s is %q", name, rows[name])
		}
	}
}

// TestAPageWithoutAReply has a lookup answered with what it found, as if there were no pages.
func TestAPageWithoutAReply(t *testing.T) {
	segments := many(t, 100)
	for name, page := range map[string]func() []byte{
		"a refusal": func() []byte { return []byte{0xff, 0x01} },
		"no page":   func() []byte { return []byte{0x85, 2} },
	} {
		address, _ := lister(t, segments, page)
		at := gateway(t, address, "--status", "127.0.0.1:0")
		conn, ctx := dial(t, at.address)
		if found, more := marked(t, ctx, conn); !more || !proto.Equal(found, answerOf(segments[:64])) {
			t.Errorf("%s: %d segments, more: %v", name, len(found.GetSegments()[2].GetSegments()), more)
		}
		if got := at.rows()[`pathd_gateway_pages_total{result="failed"}`]; got != "1" {
			t.Errorf("%s: %s pages", name, got)
		}
	}
}

func TestLargeSegmentsAreNotTooManyBytes(t *testing.T) {
	segments := many(t, 256)
	for _, it := range segments {
		it.AsEntries[0].Signed.Signature = make([]byte, 16_384)
	}
	address, _ := lister(t, segments, nil)
	conn, ctx := dial(t, gateway(t, address).address)
	// 64 of them have 1 MiB and some more: the fourth page would exceed the 4 MiB that a client takes.
	found, more := marked(t, ctx, conn)
	if !more || !proto.Equal(found, answerOf(segments[:192])) {
		t.Errorf("%d segments, more: %v", len(found.GetSegments()[2].GetSegments()), more)
	}
}

func TestPagesOfPathd(t *testing.T) {
	at := gateway(t, pathd(t, "127.0.0.1:0").address).address
	conn, ctx := dial(t, at)
	segments := many(t, 150)
	for from := 0; from < len(segments); from += 10 {
		pki.Must(t, register(ctx, conn, client.Registration(client.Down, segments[from:from+10]...)))
	}
	found, more := marked(t, ctx, conn)
	if more || !proto.Equal(found, answerOf(segments)) {
		t.Errorf("%d segments, more: %v", len(found.GetSegments()[2].GetSegments()), more)
	}
	body, err := proto.Marshal(&pb.SegmentsRequest{SrcIsdAs: core, DstIsdAs: leaf})
	pki.Must(t, err)
	code, _, text := post(t, clients()["HTTP/1.1"], "http://"+at+lookupPath, body, "Content-Type", "application/proto")
	again := new(pb.SegmentsResponse)
	if err := proto.Unmarshal([]byte(text), again); err != nil || code != 200 || !proto.Equal(again, answerOf(segments)) {
		t.Error(code, err)
	}
}
