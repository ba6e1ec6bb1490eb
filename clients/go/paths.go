package pathd

import (
	"crypto/sha256"
	"encoding/binary"
	"fmt"
	"strconv"
	"strings"
)

// Hop is an AS of a segment, and the interfaces by which a path enters and leaves it. They are 0 at
// the segment's ends.
type Hop struct {
	IsdAs           IsdAs
	Ingress, Egress uint16
}

// Path has the hops of a segment, from its first AS on.
type Path []Hop

// ParsePath answers the hops of a text such as "1-ff00:0:110 1>2 1-ff00:0:111": ISD-ASes, and between
// two of them the egress of the one and the ingress of the next.
func ParsePath(text string) (Path, error) {
	words := strings.Split(text, " ")
	if len(words)%2 == 0 {
		return nil, fmt.Errorf("pathd: no path: %q", text)
	}
	path := make(Path, (len(words)+1)/2)
	for number := range path {
		isdAs, err := ParseIsdAs(words[2*number])
		if err != nil {
			return nil, err
		}
		path[number].IsdAs = isdAs
		if number == 0 {
			continue
		}
		path[number-1].Egress, path[number].Ingress, err = parseLink(words[2*number-1])
		if err != nil {
			return nil, fmt.Errorf("pathd: no interfaces: %q", words[2*number-1])
		}
	}
	return path, nil
}

func parseLink(text string) (egress, ingress uint16, err error) {
	before, after, _ := strings.Cut(text, ">")
	from, err := strconv.ParseUint(before, 10, 16)
	if err != nil {
		return 0, 0, err
	}
	to, err := strconv.ParseUint(after, 10, 16)
	return uint16(from), uint16(to), err
}

// String answers the text that ParsePath reads as these hops.
func (p Path) String() string {
	var text strings.Builder
	for number, hop := range p {
		if number > 0 {
			fmt.Fprintf(&text, " %d>%d ", p[number-1].Egress, hop.Ingress)
		}
		text.WriteString(hop.IsdAs.String())
	}
	return text.String()
}

// ID answers the id of the segment with these hops: SHA-256 over ISD-AS, ingress and egress of each,
// in 8, 2 and 2 bytes, big-endian.
func (p Path) ID() [32]byte {
	hops := make([]byte, 0, 12*len(p))
	for _, hop := range p {
		hops = binary.BigEndian.AppendUint64(hops, uint64(hop.IsdAs))
		hops = binary.BigEndian.AppendUint16(hops, hop.Ingress)
		hops = binary.BigEndian.AppendUint16(hops, hop.Egress)
	}
	return sha256.Sum256(hops)
}
