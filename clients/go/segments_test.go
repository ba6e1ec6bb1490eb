package pathd

import (
	"encoding/hex"
	"testing"
	"time"

	"google.golang.org/protobuf/proto"
	pb "pathd/segmentspb"
)

func TestTextsOfIsdAses(t *testing.T) {
	for text, number := range map[string]IsdAs{
		"1-ff00:0:110": 0x0001_ff00_0000_0110, "2-64512": 2<<48 | 64512, "0-0": 0,
		"65535-ffff:ffff:ffff": 1<<64 - 1, "1-4294967295": 1<<48 | 1<<32 - 1, "1-1:0:0": 1<<48 | 1<<32,
	} {
		if got, err := ParseIsdAs(text); err != nil || got != number || number.String() != text {
			t.Errorf("%s: %d, %v, %s", text, got, err, number)
		}
	}
	if got, err := ParseIsdAs("7-0:0:A"); err != nil || got != 7<<48|10 || got.ISD() != 7 || got.AS() != 10 {
		t.Errorf("%v, %v", got, err)
	}
	for _, text := range []string{
		"", "1", "1-", "-1", "65536-1", "1-4294967296", "1-1:0", "1-0:0:0:0", "1-10000:0:0", "1-00000:0:0",
		"1-:0:0", "+1-1", "1-+1", "1-0:0:-1", "1-ff00_0:0:0", "a-1", "1-ff",
	} {
		if got, err := ParseIsdAs(text); err == nil {
			t.Errorf("%q: %v", text, got)
		}
	}
}

func TestTextsOfPaths(t *testing.T) {
	text := "2-64512 11>12 1-ff00:0:120 13>65535 1-ff00:0:110"
	path, err := ParsePath(text)
	wanted := Path{{2<<48 | 64512, 0, 11}, {0x0001_ff00_0000_0120, 12, 13}, {0x0001_ff00_0000_0110, 65535, 0}}
	if err != nil || path.String() != text || len(path) != 3 || path[0] != wanted[0] || path[1] != wanted[1] || path[2] != wanted[2] {
		t.Errorf("%v, %v", path, err)
	}
	for _, text := range []string{"", "1-1 1>2", "1-1 12 1-2", "1-1 1>65536 1-2", "1-1 >1 1-2", "1-1  1-2"} {
		if got, err := ParsePath(text); err == nil {
			t.Errorf("%q: %v", text, got)
		}
	}
}

// Of the worked segment of docs/PROTOCOL.md.
func TestTheWorkedSegment(t *testing.T) {
	read, err := DecodeSegment(segment(t, 1_700_000_000))
	if err != nil {
		t.Fatal(err)
	}
	id := read.ID()
	if hex.EncodeToString(id[:]) != "8adcea68dc57cbbe68da7142af88b68a9d27a590e1d5157c53c2bb2c762345ff" {
		t.Errorf("%x", id)
	}
	if read.Path.String() != "1-ff00:0:110 1>2 1-ff00:0:111" || read.Made.Unix() != 1_700_000_000 {
		t.Errorf("%v", read)
	}
	if MomentOf(read.Expires) != 3_400_043_200 {
		t.Errorf("%d", MomentOf(read.Expires))
	}
}

// The bytes are those that the client in Python makes of these hops.
func TestSegmentsThatAreMade(t *testing.T) {
	path, err := ParsePath("1-ff00:0:110 1>2 1-ff00:0:111")
	if err != nil {
		t.Fatal(err)
	}
	for _, c := range []struct{ key, wanted string }{
		{"", "0a080880d0acf30e100112290a270a251223089082808080e07f109182808080e07f1a0e0a0c1001183f220600000000" +
			"000028c00b12210a1f0a1d121b089182808080e07f1a0e0a0c0802183f220600000000000028c00b"},
		{"a key", "0a080880d0acf30e1001124b0a490a251223089082808080e07f109182808080e07f1a0e0a0c1001183f220600000000" +
			"000028c00b1220a095ea588f8739b90871b697ad6afbcf58606e511a5d93f0111b67d9bfa0b2ac12430a410a1d121b08" +
			"9182808080e07f1a0e0a0c0802183f220600000000000028c00b1220399f49ca9bde4b411c73e311c2b3bd078da30672" +
			"c986ab8c2564b315acf5ae8f"},
	} {
		var key []byte
		if c.key != "" {
			key = []byte(c.key)
		}
		made, err := EncodeSegment(path, time.Unix(4_000_000_000, 999), key)
		if err != nil {
			t.Fatal(err)
		}
		content, err := proto.Marshal(made)
		if err != nil || hex.EncodeToString(content) != c.wanted {
			t.Errorf("%x, %v", content, err)
		}
		read, err := DecodeSegment(made)
		if err != nil || read.Path.String() != path.String() || read.Made.Unix() != 4_000_000_000 {
			t.Errorf("%v, %v", read, err)
		}
	}
}

func TestWhatIsNoSegment(t *testing.T) {
	for _, it := range []*pb.PathSegment{
		nil, {}, {SegmentInfo: []byte{0xff}, AsEntries: []*pb.ASEntry{{}}},
		{AsEntries: []*pb.ASEntry{{Signed: &pb.SignedMessage{HeaderAndBody: []byte{0x0a, 9}}}}},
		{AsEntries: []*pb.ASEntry{{Signed: &pb.SignedMessage{HeaderAndBody: []byte{0x12, 1, 0xff}}}}},
	} {
		if got, err := DecodeSegment(it); err == nil {
			t.Errorf("%v", got)
		}
	}
}

func TestMoments(t *testing.T) {
	for _, c := range []struct {
		at     time.Time
		moment Moment
	}{
		{time.Time{}, 0}, {time.Unix(-1, 0), 0}, {time.Unix(0, 0), 0}, {time.Unix(0, 499_999_999), 0},
		{time.Unix(0, 500_000_000), 1}, {time.Unix(1_700_021_599, 999_999_999), 3_400_043_199},
		{time.Unix(1_700_021_600, 0), 3_400_043_200},
	} {
		if got := MomentOf(c.at); got != c.moment {
			t.Errorf("%v: %d", c.at, got)
		}
	}
	for _, moment := range []Moment{0, 1, 3_400_043_199, 1<<64 - 1} {
		if got := MomentOf(moment.Time()); got != moment {
			t.Errorf("%d: %d", moment, got)
		}
	}
}
