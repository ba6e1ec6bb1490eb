package testpki

import (
	"crypto"
	"crypto/elliptic"
	"crypto/rand"
	"os"
	"path/filepath"
	"testing"
	"time"

	"google.golang.org/protobuf/encoding/protowire"
)

// ISD is a PKI of one ISD: its voters, a root, a CA, and the base TRC.
type ISD struct {
	Number                         int64
	Sensitive, Regular, Root1, CA1 *Signer
	Base                           *Payload
	TRC                            []byte
}

// NewISD makes the PKI of an ISD whose core AS is ff00:0:110.
func NewISD(t testing.TB, curve elliptic.Curve, number int64) *ISD {
	core := "1-ff00:0:110"
	if number != 1 {
		core = "2-ff00:0:210"
	}
	it := &ISD{Number: number}
	it.Sensitive = New(t, curve, "sensitive", core, nil, For(Sensitive))
	it.Regular = New(t, curve, "regular", core, nil, For(Regular))
	it.Root1 = New(t, curve, "root", core, nil, Authority(1), For(Root))
	it.CA1 = New(t, curve, "ca", core, it.Root1, Authority(0))
	it.Base = NewPayload(number, 1, 1, it.Sensitive, it.Regular, it.Root1)
	it.TRC = Sign(t, it.Base, it.Sensitive, it.Regular)
	return it
}

// AS answers an AS's certificate of the ISD's CA.
func (it *ISD) AS(t testing.TB, curve elliptic.Curve, isdAS string) *Signer {
	return New(t, curve, "as", isdAS, it.CA1, OfAS)
}

// WriteTRC writes the base TRC to a folder, and WriteChain a chain.
func (it *ISD) WriteTRC(t testing.TB, folder string) {
	Must(t, os.WriteFile(filepath.Join(folder, "base.trc"), it.TRC, 0o600))
}

// WriteChain writes the chain of an AS's certificate to a folder.
func (it *ISD) WriteChain(t testing.TB, folder, name string, as *Signer) {
	Must(t, os.WriteFile(filepath.Join(folder, name+".pem"), PEM(as.Raw, it.CA1.Raw), 0o600))
}

// Hop is an AS of a segment.
type Hop struct {
	// Signer has signed the entry. IsdAS is that of the entry, and KeyOf that of the signer's key.
	Signer       *Signer
	IsdAS, KeyOf uint64
	Base, Serial uint64
	// Body is that of the entry, where it is not one that is made for the hop.
	Body []byte
}

// Algorithms has the hash of each algorithm.
var Algorithms = map[uint64]crypto.Hash{1: crypto.SHA256, 2: crypto.SHA384, 3: crypto.SHA512}

// Number appends a field with a number to a message.
func Number(to []byte, field protowire.Number, value uint64) []byte {
	return protowire.AppendVarint(protowire.AppendTag(to, field, protowire.VarintType), value)
}

// Bytes appends a field with bytes to a message.
func Bytes(to []byte, field protowire.Number, value []byte) []byte {
	return protowire.AppendBytes(protowire.AppendTag(to, field, protowire.BytesType), value)
}

// Segment answers a PathSegment with an entry for each hop, signed with an algorithm.
func Segment(t testing.TB, at time.Time, algorithm uint64, hops ...Hop) []byte {
	t.Helper()
	return SegmentOf(t, Number(Number(nil, 1, uint64(at.Unix())), 2, 7), algorithm, hops...)
}

// SegmentOf answers such a segment with a SegmentInformation.
func SegmentOf(t testing.TB, info []byte, algorithm uint64, hops ...Hop) []byte {
	t.Helper()
	out := Bytes(nil, 1, info)
	associated := append([]byte(nil), info...)
	for i, hop := range hops {
		key := Number(Number(Bytes(Number(nil, 1, hop.KeyOf), 2, hop.Signer.SubjectKeyId), 3, hop.Base), 4, hop.Serial)
		header := Number(Bytes(Number(nil, 1, algorithm), 2, key), 5, uint64(len(associated)))
		both := Bytes(Bytes(nil, 1, header), 2, body(hops, i))
		of := Algorithms[algorithm].New()
		of.Write(both)
		of.Write(associated)
		signature, err := hop.Signer.Key.Sign(rand.Reader, of.Sum(nil), Algorithms[algorithm])
		Must(t, err)
		out = Bytes(out, 2, Bytes(nil, 1, Bytes(Bytes(nil, 1, both), 2, signature)))
		associated = append(append(associated, both...), signature...)
	}
	return out
}

func body(hops []Hop, i int) []byte {
	if hops[i].Body != nil {
		return hops[i].Body
	}
	hop := []byte(nil)
	if i > 0 {
		hop = Number(hop, 1, 2)
	}
	out := Number(nil, 1, hops[i].IsdAS)
	if i+1 < len(hops) {
		hop = Number(hop, 2, 1)
		out = Number(out, 2, hops[i+1].IsdAS)
	}
	hop = Bytes(Number(hop, 3, 63), 4, []byte("abcdef"))
	return Number(Bytes(out, 3, Bytes(nil, 1, hop)), 5, 1472)
}

// Registration answers a SegmentsRegistrationRequest of segments of one type.
func Registration(kind uint64, segments ...[]byte) []byte {
	var list []byte
	for _, one := range segments {
		list = Bytes(list, 1, one)
	}
	return Bytes(nil, 1, Bytes(Number(nil, 1, kind), 2, list))
}
