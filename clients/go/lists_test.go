package pathd

import (
	"bytes"
	"context"
	"encoding/hex"
	"errors"
	"fmt"
	"sort"
	"strings"
	"testing"
	"time"

	"google.golang.org/protobuf/proto"
	pb "pathd/segmentspb"
)

// many answers segments between two ASes with their ids, in the order of these.
func many(t *testing.T, count int, end string) (segments []*pb.PathSegment, ids [][32]byte) {
	byID := map[[32]byte]*pb.PathSegment{}
	for number := 0; number < count; number++ {
		path, err := ParsePath(fmt.Sprintf("1-ff00:0:110 %d>2 %s", number+1, end))
		if err != nil {
			t.Fatal(err)
		}
		segment, err := EncodeSegment(path, time.Unix(made, 0), nil)
		if err != nil {
			t.Fatal(err)
		}
		byID[path.ID()] = segment
		ids = append(ids, path.ID())
	}
	sort.Slice(ids, func(i, j int) bool { return bytes.Compare(ids[i][:], ids[j][:]) < 0 })
	for _, id := range ids {
		segments = append(segments, byID[id])
	}
	return segments, ids
}

// pageReply answers the content of the reply that has these segments.
func pageReply(t *testing.T, more bool, kind pb.SegmentType, segments ...*pb.PathSegment) []byte {
	content := []byte{0x85, 0}
	if more {
		content[1] = 1
	}
	if len(segments) == 0 {
		return content
	}
	body, err := proto.Marshal(&pb.SegmentsResponse{Segments: Registration(kind, segments...).Segments})
	if err != nil {
		t.Fatal(err)
	}
	return append(content, body...)
}

// lists answers each list with pages of so many of these segments, which are of a type.
func lists(t *testing.T, size int, kind pb.SegmentType, segments []*pb.PathSegment, ids [][32]byte) func([]byte) []byte {
	return func(content []byte) []byte {
		if content[0] != 5 || content[1] != byte(kind) {
			return pageReply(t, false, kind)
		}
		from := sort.Search(len(ids), func(i int) bool { return bytes.Compare(ids[i][:], content[18:]) > 0 })
		to := from + size
		if to > len(ids) {
			to = len(ids)
		}
		return pageReply(t, to < len(ids), kind, segments[from:to]...)
	}
}

// listed answers what a list gives, up to its error.
func listed(each func(func(*pb.PathSegment, error) bool)) (found []*pb.PathSegment, err error) {
	each(func(segment *pb.PathSegment, fault error) bool {
		if err = fault; err == nil {
			found = append(found, segment)
		}
		return true
	})
	return found, err
}

func areEqual(one, other []*pb.PathSegment) bool {
	return proto.Equal(&pb.Segments{Segments: one}, &pb.Segments{Segments: other})
}

func TestTheBytesOfAList(t *testing.T) {
	client, server, ctx := open(t)
	id := [32]byte{0x8a, 31: 0xff}
	for _, c := range []struct {
		after *[32]byte
		body  string
	}{
		{nil, "020001ff00000001100001ff0000000111"},
		{&id, "020001ff00000001100001ff00000001118a" + hex.EncodeToString(make([]byte, 30)) + "ff"},
	} {
		done := make(chan error, 1)
		go func() {
			page, err := client.ListPage(ctx, Down, core, leaf, c.after)
			if len(page.Segments) != 0 || page.More {
				t.Errorf("%v", page)
			}
			done <- err
		}()
		if kind, body := server.next(); kind != 5 || hex.EncodeToString(body) != c.body {
			t.Errorf("kind %d, body %x", kind, body)
		}
		server.write(0x85, 0)
		if err := <-done; err != nil {
			t.Error(err)
		}
	}
	// The worked segment of docs/PROTOCOL.md in a page that others follow.
	page, err := hex.DecodeString("01" + "0a5e" + "0802" + "125a" + "0a58" + worked)
	if err != nil {
		t.Fatal(err)
	}
	go func() {
		server.next()
		server.write(append([]byte{0x85}, page...)...)
	}()
	got, err := client.ListPage(ctx, Down, 0, 0, nil)
	if err != nil || !got.More || len(got.Segments) != 1 {
		t.Fatalf("%v, %v", got, err)
	}
	if id, err := got.Last(); err != nil || fmt.Sprintf("%x", id) != "8adcea68dc57cbbe68da7142af88b68a9d27a590e1d5157c53c2bb2c762345ff" {
		t.Errorf("%x, %v", id, err)
	}
}

func TestAllPages(t *testing.T) {
	segments, ids := many(t, 5, "1-ff00:0:111")
	for _, size := range []int{1, 2, 4, 5, 9} {
		store := running(t, lists(t, size, Down, segments, ids))
		client, ctx := clientOf(t, store, ClientOptions{})
		servers, _ := serversOf(t, Options{}, newStore(t, taken), store)
		for _, each := range []func(func(*pb.PathSegment, error) bool){
			client.List(ctx, Down, 0, 0), servers.List(ctx, Down, 0, 0),
		} {
			if found, err := listed(each); err != nil || !areEqual(found, segments) {
				t.Errorf("%d: %d segments, %v", size, len(found), err)
			}
		}
		if found, err := listed(client.List(ctx, Up, 0, 0)); err != nil || len(found) != 0 {
			t.Errorf("%v, %v", found, err)
		}
		page, err := servers.ListPage(ctx, Down, 0, 0, &ids[1])
		if most := 2 + size; err != nil || page.More != (most < 5) || most <= 5 && !areEqual(page.Segments, segments[2:most]) {
			t.Errorf("%d: %d segments, %v", size, len(page.Segments), err)
		}
		if _, queries := store.came(); queries != 2*((5+size-1)/size)+2 {
			t.Errorf("%d: %d lists", size, queries)
		}
	}
}

func TestAListIsLeft(t *testing.T) {
	segments, ids := many(t, 5, "1-ff00:0:111")
	store := running(t, lists(t, 2, Down, segments, ids))
	client, ctx := clientOf(t, store, ClientOptions{})
	count := 0
	client.List(ctx, Down, 0, 0)(func(*pb.PathSegment, error) bool {
		count++
		return count < 2
	})
	if _, queries := store.came(); count != 2 || queries != 1 {
		t.Errorf("%d segments of %d pages", count, queries)
	}
}

func TestListsThatFail(t *testing.T) {
	segments, ids := many(t, 3, "1-ff00:0:111")
	first := lists(t, 2, Down, segments, ids)
	for name, c := range map[string]struct {
		second []byte
		wanted error
	}{
		"refused":         {[]byte{0xff, 0x29}, BadType},
		"empty":           {[]byte{0x85}, ErrReply},
		"another byte":    {[]byte{0x85, 2}, ErrReply},
		"no segment":      {[]byte{0x85, 1}, ErrReply},
		"no message":      {[]byte{0x85, 0, 0x0a}, ErrReply},
		"another type":    {pageReply(t, false, Up, segments[2]), ErrReply},
		"the page before": {pageReply(t, true, Down, segments[0], segments[1]), ErrReply},
		"no id":           {pageReply(t, true, Down, &pb.PathSegment{}), ErrReply},
	} {
		store := running(t, func(content []byte) []byte {
			if len(content) > 18 {
				return c.second
			}
			return first(content)
		})
		client, ctx := clientOf(t, store, ClientOptions{})
		if found, err := listed(client.List(ctx, Down, 0, 0)); !errors.Is(err, c.wanted) || !areEqual(found, segments[:2]) {
			t.Errorf("%s: %d segments, %v", name, len(found), err)
		}
	}
}

func TestAServerWithoutLists(t *testing.T) {
	const said = "the server does not list: run it with --lists"
	for _, c := range []struct {
		after *[32]byte
		begun []byte // what comes before the connection ends
		is    bool
	}{
		{nil, nil, true},
		{nil, []byte{0}, false},
		{&[32]byte{}, nil, false},
	} {
		client, server, ctx := open(t)
		go func() {
			server.next()
			server.conn.Write(c.begun)
			server.conn.Close()
		}()
		once := ask(func(ctx context.Context, kind Kind, body []byte) ([]byte, error) {
			return client.session().ask(ctx, byte(kind), body)
		})
		if _, err := once.page(ctx, Down, 0, 0, c.after); err == nil || strings.Contains(err.Error(), said) != c.is {
			t.Errorf("%v, %v: %v", c.after, c.begun, err)
		}
	}
}

func TestAListIsSentAgain(t *testing.T) {
	segments, ids := many(t, 3, "1-ff00:0:111")
	store := running(t, lists(t, 1, Down, segments, ids))
	client, ctx := clientOf(t, store, ClientOptions{})
	var found []*pb.PathSegment
	client.List(ctx, Down, 0, 0)(func(segment *pb.PathSegment, err error) bool {
		if err != nil {
			t.Error(err)
		}
		found = append(found, segment)
		store.stop()
		store.start()
		return true
	})
	if !areEqual(found, segments) {
		t.Errorf("%d segments", len(found))
	}
}

func TestPagesOfPathd(t *testing.T) {
	client, address, ctx := started(t)
	kinds := map[pb.SegmentType]int{Up: 64, Down: 150, Core: 65}
	for kind, count := range kinds {
		segments, _ := many(t, count, "1-ff00:0:111")
		for len(segments) > 0 {
			part := len(segments)
			if part > 16 {
				part = 16
			}
			if _, err := client.Register(ctx, Registration(kind, segments[:part]...)); err != nil {
				t.Fatal(err)
			}
			segments = segments[part:]
		}
	}
	servers, err := NewServers([]string{address}, Options{})
	if err != nil {
		t.Fatal(err)
	}
	defer servers.Close()
	for kind, count := range kinds {
		segments, _ := many(t, count, "1-ff00:0:111")
		for _, each := range []func(func(*pb.PathSegment, error) bool){
			client.List(ctx, kind, 0, 0), client.List(ctx, kind, core, leaf), servers.List(ctx, kind, 1<<48, leaf&(1<<48-1)),
		} {
			if found, err := listed(each); err != nil || !areEqual(found, segments) {
				t.Errorf("%v: %d segments, %v", kind, len(found), err)
			}
		}
		if found, err := listed(client.List(ctx, kind, leaf, core)); err != nil || len(found) != 0 {
			t.Errorf("%v: %d segments, %v", kind, len(found), err)
		}
	}
	checkPages(t, ctx, client)
	if _, err := client.ListPage(ctx, 4, 0, 0, nil); !errors.Is(err, BadType) {
		t.Error(err)
	}
}

// checkPages looks at pages after ids, that of a segment and one that no segment has.
func checkPages(t *testing.T, ctx context.Context, client *Client) {
	segments, ids := many(t, 150, "1-ff00:0:111")
	found, err := client.Lookup(ctx, core, leaf)
	if err != nil || !areEqual(found.Segments[int32(Down)].GetSegments(), segments[:64]) {
		t.Error(err)
	}
	for _, number := range []int{0, 63, 85, 86, 149} {
		rest := segments[number+1:]
		first, more := rest, len(rest) > 64
		if more {
			first = rest[:64]
		}
		page, err := client.ListPage(ctx, Down, core, leaf, &ids[number])
		if err != nil || page.More != more || !areEqual(page.Segments, first) {
			t.Errorf("%d: %d segments, %v", number, len(page.Segments), err)
		}
		below := ids[number]
		for at := 31; at >= 0; at-- {
			if below[at]--; below[at] != 0xff {
				break
			}
		}
		if page, err = client.ListPage(ctx, Down, core, leaf, &below); err != nil || !proto.Equal(page.Segments[0], segments[number]) {
			t.Errorf("%d: %v", number, err)
		}
	}
	last := [32]byte{}
	for at := range last {
		last[at] = 0xff
	}
	if page, err := client.ListPage(ctx, Down, core, leaf, &last); err != nil || len(page.Segments) != 0 || page.More {
		t.Errorf("%v, %v", page, err)
	}
}
