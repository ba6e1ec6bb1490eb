package pathd

import (
	"context"
	"encoding/hex"
	"errors"
	"testing"
	"time"

	"google.golang.org/protobuf/proto"
	"pathd/internal/testpathd"
	pb "pathd/segmentspb"
)

const (
	// Of the worked segment of docs/PROTOCOL.md: its bytes, what its id is of, and its two ASes.
	worked = "0a080880e2cfaa06100712290a270a2512230890" + "82808080e07f109182808080e07f1a0e0a0c1001183f220601020304050628c00b" +
		"12210a1f0a1d121b089182808080e07f1a0e0a0c0802183f22060a0b0c0d0e0f28c00b"
	core, leaf IsdAs = 0x0001_ff00_0000_0110, 0x0001_ff00_0000_0111
	made             = 4_000_000_000 // in 2096
	mostSeats        = 64
	cores            = "1-ff00:0:110"
)

// started answers a client of a new server, and its address.
func started(t *testing.T) (*Client, string, context.Context) {
	server := testpathd.Start(t, "64", "516", "--cores", cores)
	ctx, cancel := context.WithTimeout(context.Background(), limit)
	client := NewClient(server.Address, ClientOptions{})
	t.Cleanup(func() { client.Close(); cancel() })
	return client, server.Address, ctx
}

// segment answers the worked segment, made at a time in seconds since 1970.
func segment(t *testing.T, timestamp int64) *pb.PathSegment {
	content, err := hex.DecodeString(worked)
	if err != nil {
		t.Fatal(err)
	}
	segment := new(pb.PathSegment)
	if err := proto.Unmarshal(content, segment); err != nil {
		t.Fatal(err)
	}
	segment.SegmentInfo, err = proto.Marshal(&pb.SegmentInformation{Timestamp: timestamp, SegmentId: 7})
	if err != nil {
		t.Fatal(err)
	}
	return segment
}

func TestASessionWithPathd(t *testing.T) {
	client, _, ctx := started(t)
	wanted := segment(t, made)
	acks := []struct {
		ask    func() (Ack, error)
		wanted Ack
	}{
		{func() (Ack, error) { return client.Register(ctx, Registration(Down, wanted)) }, Ack{Place: 0, Inserted: 1}},
		{func() (Ack, error) { return client.Register(ctx, Registration(Down, wanted)) }, Ack{Place: 1, Kept: 1}},
		{func() (Ack, error) { return client.Purge(ctx, time.Unix(made, 0)) }, Ack{Place: 2}},
	}
	for _, c := range acks {
		if got, err := c.ask(); err != nil || got != c.wanted {
			t.Errorf("%v, %v", got, err)
		}
	}
	found, err := client.Lookup(ctx, core, leaf)
	if err != nil || !proto.Equal(found, &pb.SegmentsResponse{Segments: Registration(Down, wanted).Segments}) {
		t.Errorf("%v, %v", found, err)
	}
	read, err := DecodeSegment(wanted)
	if err != nil {
		t.Fatal(err)
	}
	ack, err := client.Remove(ctx, Down, read.ID())
	if err != nil || ack != (Ack{Place: 3, Purged: 1}) {
		t.Errorf("%v, %v", ack, err)
	}
	if found, err := client.Lookup(ctx, core, leaf); err != nil || len(found.Segments) != 0 {
		t.Errorf("%v, %v", found, err)
	}
}

func TestRefusalsOfPathd(t *testing.T) {
	client, _, ctx := started(t)
	if _, err := client.Lookup(ctx, 0, 0); !errors.Is(err, NullDestination) {
		t.Error(err)
	}
	if _, err := client.Lookup(ctx, leaf, leaf); !errors.Is(err, NoCore) {
		t.Error(err)
	}
	if _, err := client.Register(ctx, Registration(Down, segment(t, 1_700_000_000))); !errors.Is(err, Expired) {
		t.Error(err)
	}
	if _, err := client.Register(ctx, Registration(Down, &pb.PathSegment{})); !errors.Is(err, Entries) {
		t.Error(err)
	}
	if _, err := client.Remove(ctx, 0, [32]byte{}); !errors.Is(err, BadType) {
		t.Error(err)
	}
}

func TestOneSessionMoreThanPathdHas(t *testing.T) {
	_, address, ctx := started(t)
	for number := 0; number <= mostSeats; number++ {
		client := NewClient(address, ClientOptions{Attempts: 1})
		defer client.Close()
		_, err := client.Lookup(ctx, core, leaf)
		if wanted := number < mostSeats; wanted != (err == nil) || (!wanted && !errors.Is(err, NoSession)) {
			t.Errorf("%d: %v", number, err)
		}
	}
}
