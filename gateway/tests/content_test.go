package tests

import (
	"strings"
	"testing"
	"time"

	"google.golang.org/grpc"
	"google.golang.org/grpc/codes"
	"google.golang.org/grpc/status"
	"google.golang.org/protobuf/proto"

	pki "pathd/gateway/internal/testpki"
	pb "pathd/segmentspb"
)

// content is a segment before it is signed.
type content struct {
	kind int32
	info *pb.SegmentInformation
	body [2]*pb.ASEntrySignedBody
}

// newContent answers a down segment of two entries, whose second one has a peer.
func newContent() *content {
	hop := func(ingress, egress uint64) *pb.HopEntry {
		return &pb.HopEntry{HopField: &pb.HopField{Ingress: ingress, Egress: egress, ExpTime: 63, Mac: []byte("abcdef")}, IngressMtu: 1472}
	}
	return &content{2, &pb.SegmentInformation{Timestamp: time.Now().Unix(), SegmentId: 7}, [2]*pb.ASEntrySignedBody{
		{IsdAs: core, NextIsdAs: leaf, HopEntry: hop(0, 1), Mtu: 1472},
		{IsdAs: leaf, HopEntry: hop(2, 0), Mtu: 1472, PeerEntries: []*pb.PeerEntry{
			{PeerIsdAs: leaf + 1, PeerInterface: 5, PeerMtu: 1472, HopField: hop(6, 0).HopField}}},
	}}
}

// signed answers the registration of a content, which both have signed.
func (c *content) signed(t *testing.T, one, two *pki.Signer) *pb.SegmentsRegistrationRequest {
	must := func(it proto.Message) []byte {
		out, err := proto.Marshal(it)
		pki.Must(t, err)
		return append([]byte{}, out...)
	}
	segment := pki.SegmentOf(t, must(c.info), 1,
		pki.Hop{Signer: one, KeyOf: core, Base: 1, Serial: 1, Body: must(c.body[0])},
		pki.Hop{Signer: two, KeyOf: leaf, Base: 1, Serial: 1, Body: must(c.body[1])})
	request := new(pb.SegmentsRegistrationRequest)
	pki.Must(t, proto.Unmarshal(pki.Registration(uint64(c.kind), segment), request))
	return request
}

// TestTheContentOfSegments has segments whose entries are all well signed, and each of which has one thing that
// is not taken. What pathd judges, it judges once the signatures were found good.
func TestTheContentOfSegments(t *testing.T) {
	folder, _, one, two := trusted(t)
	conn, ctx := dial(t, gateway(t, pathd(t, "127.0.0.1:0").address, "--trust", folder).address)
	pki.Must(t, register(ctx, conn, newContent().signed(t, one, two)))
	peer := func(c *content) *pb.PeerEntry { return c.body[1].PeerEntries[0] }
	for what, c := range map[string]struct {
		code   string
		change func(*content)
	}{
		"a type that there is not":         {"0x29", func(c *content) { c.kind = 4 }},
		"a segment id above 16 bits":       {"0x25", func(c *content) { c.info.SegmentId = 1 << 16 }},
		"another next AS":                  {"0x26", func(c *content) { c.body[0].NextIsdAs++ }},
		"a next AS of the last one":        {"0x26", func(c *content) { c.body[1].NextIsdAs = core + 7 }},
		"an interface above 16 bits":       {"0x25", func(c *content) { c.body[0].HopEntry.HopField.Egress = 1 << 16 }},
		"an ingress of the first one":      {"0x26", func(c *content) { c.body[0].HopEntry.HopField.Ingress = 1 }},
		"no egress but of the last one":    {"0x26", func(c *content) { c.body[0].HopEntry.HopField.Egress = 0 }},
		"an expiry above 8 bits":           {"0x25", func(c *content) { c.body[0].HopEntry.HopField.ExpTime = 256 }},
		"a MAC of 5 bytes":                 {"0x25", func(c *content) { c.body[0].HopEntry.HopField.Mac = []byte("abcde") }},
		"no hop entry":                     {"0x24", func(c *content) { c.body[0].HopEntry = nil }},
		"an MTU above 31 bits":             {"0x25", func(c *content) { c.body[0].Mtu = 1 << 31 }},
		"an ingress MTU above 31 bits":     {"0x25", func(c *content) { c.body[1].HopEntry.IngressMtu = 1 << 31 }},
		"a peer without an AS":             {"0x25", func(c *content) { peer(c).PeerIsdAs = 1 << 48 }},
		"a peer without an ISD":            {"0x25", func(c *content) { peer(c).PeerIsdAs = 7 }},
		"a peer's interface above 16 bits": {"0x25", func(c *content) { peer(c).PeerInterface = 1 << 16 }},
		"a peer's MTU above 31 bits":       {"0x25", func(c *content) { peer(c).PeerMtu = 1 << 31 }},
		"a peer without a hop field":       {"0x24", func(c *content) { peer(c).HopField = nil }},
		"a peer's MAC of 7 bytes":          {"0x25", func(c *content) { peer(c).HopField.Mac = []byte("abcdefg") }},
		"a peer's expiry above 8 bits":     {"0x25", func(c *content) { peer(c).HopField.ExpTime = 256 }},
		"another AS than that of the key":  {"0x31", func(c *content) { c.body[0].IsdAs++ }},
		"a timestamp before the chains":    {"0x31", func(c *content) { c.info.Timestamp -= 3 * 3600 }},
		"an expiry after the chains":       {"0x31", func(c *content) { c.info.Timestamp += 47 * 3600 }},
		"an expiry in the past":            {"0x32", func(c *content) { c.info.Timestamp -= 3600; c.body[0].HopEntry.HopField.ExpTime = 1 }},
	} {
		changed := newContent()
		c.change(changed)
		err := register(ctx, conn, changed.signed(t, one, two))
		if status.Code(err) != codes.InvalidArgument || !strings.HasPrefix(status.Convert(err).Message(), c.code+" ") {
			t.Errorf("%s: %v", what, err)
		}
	}
	hop := pki.Hop{Signer: one, KeyOf: core, Base: 1, Serial: 1}
	info := func(c *content) []byte { out, _ := proto.Marshal(c.info); return out }(newContent())
	many := func(count int, as func(number int) uint64) []byte {
		var hops []pki.Hop
		for number := 0; number < count; number++ {
			c := newContent()
			c.body[0].IsdAs, c.body[0].NextIsdAs = as(number), as(number+1)
			if number > 0 {
				c.body[0].HopEntry.HopField.Ingress = 2
			}
			if number == count-1 {
				c.body[0].NextIsdAs, c.body[0].HopEntry.HopField.Egress = 0, 0
			}
			body, err := proto.Marshal(c.body[0])
			pki.Must(t, err)
			hops = append(hops, hop)
			hops[number].Body, hops[number].IsdAS, hops[number].KeyOf = body, as(number), as(number)
			if as(number) == leaf {
				hops[number].Signer = two
			}
		}
		return pki.SegmentOf(t, info, 1, hops...)
	}
	for what, c := range map[string]struct {
		code    string
		segment []byte
	}{
		"no entries":           {"0x28", many(0, func(int) uint64 { return core })},
		"65 entries":           {"0x28", many(65, func(int) uint64 { return core })},
		"an AS twice":          {"0x27", many(3, func(number int) uint64 { return []uint64{core, leaf, core, 0}[number] })},
		"bytes that are cut":   {"0x31", append(many(1, func(int) uint64 { return core }), 0x12)},
		"a field of groups":    {"0x31", append(many(1, func(int) uint64 { return core }), 0x7b)},
		"another type of wire": {"0x22", append(many(1, func(int) uint64 { return core }), 0x08, 1)},
	} {
		request := pki.Registration(2, c.segment)
		err := conn.Invoke(ctx, registrationPath, &rawMessage{request}, &rawMessage{}, grpc.ForceCodec(rawCodec{}))
		if status.Code(err) != codes.InvalidArgument || !strings.HasPrefix(status.Convert(err).Message(), c.code+" ") {
			t.Errorf("%s: %v", what, err)
		}
	}
}
