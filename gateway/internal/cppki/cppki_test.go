package cppki

import (
	"bytes"
	"crypto/elliptic"
	"crypto/x509"
	"crypto/x509/pkix"
	"errors"
	"strings"
	"testing"
	"time"

	pki "pathd/gateway/internal/testpki"
)

const core, leaf = 0x0001_ff00_0000_0110, 0x0001_ff00_0000_0111

func parseTRC(t testing.TB, raw []byte) *TRC {
	t.Helper()
	trc, err := ParseTRC(raw)
	pki.Must(t, err)
	return trc
}

func chainOf(t testing.TB, as, ca *pki.Signer) *Chain {
	t.Helper()
	chain, err := ParseChain(as.Raw, ca.Raw)
	pki.Must(t, err)
	return chain
}

func materialOf(t testing.TB, isd *pki.ISD, chains ...*Chain) *Material {
	t.Helper()
	m, err := NewMaterial([]*TRC{parseTRC(t, isd.TRC)}, chains)
	pki.Must(t, err)
	return m
}

// verify verifies a segment with a memory of its own, where it is given none.
func verify(m *Material, segment []byte, at time.Time, known Known) error {
	entries, err := Entries(segment)
	if err != nil {
		return err
	}
	if known == nil {
		known = NewMemory(100)
	}
	for _, one := range entries {
		if err := m.Verify(one, at, known); err != nil {
			return err
		}
	}
	return nil
}

// twoHops answers a material with two ASes, and a segment from one to the other.
func twoHops(t testing.TB, algorithm uint64) (*Material, []byte, []pki.Hop) {
	isd := pki.NewISD(t, elliptic.P256(), 1)
	one, two := isd.AS(t, elliptic.P256(), "1-ff00:0:110"), isd.AS(t, elliptic.P256(), "1-ff00:0:111")
	m := materialOf(t, isd, chainOf(t, one, isd.CA1), chainOf(t, two, isd.CA1))
	hops := []pki.Hop{{Signer: one, IsdAS: core, KeyOf: core, Base: 1, Serial: 1}, {Signer: two, IsdAS: leaf, KeyOf: leaf, Base: 1, Serial: 1}}
	return m, pki.Segment(t, time.Now(), algorithm, hops...), hops
}

func TestEachBitOfASignedEntryMatters(t *testing.T) {
	for algorithm := range pki.Algorithms {
		m, good, _ := twoHops(t, algorithm)
		known := NewMemory(1000)
		pki.Must(t, verify(m, good, time.Now(), known))
		pki.Must(t, verify(m, good, time.Now(), known))
		for at := range good {
			for bit := 0; bit < 8; bit++ {
				bad := append([]byte(nil), good...)
				bad[at] ^= 1 << bit
				// A bit of the tag makes the last entry a field that is not known: pathd refuses the rest.
				if left, err := Entries(bad); err == nil && len(left) < 2 {
					continue
				}
				if verify(m, bad, time.Now(), known) == nil {
					t.Errorf("algorithm %d: bit %d of byte %d does not matter", algorithm, bit, at)
				}
			}
		}
	}
}

func TestEntriesThatAreRefused(t *testing.T) {
	m, _, hops := twoHops(t, 1)
	other := pki.NewISD(t, elliptic.P256(), 1)
	stranger := other.AS(t, elliptic.P256(), "1-ff00:0:110")
	with := func(change func(*pki.Hop)) []byte {
		changed := append([]pki.Hop(nil), hops...)
		change(&changed[0])
		return pki.Segment(t, time.Now(), 1, changed...)
	}
	for name, c := range map[string]struct {
		segment []byte
		wanted  error
	}{
		"an unknown key":         {with(func(h *pki.Hop) { h.Signer = stranger }), ErrNoChain},
		"another AS's key":       {with(func(h *pki.Hop) { h.Signer, h.KeyOf = hops[1].Signer, leaf }), nil},
		"another AS in the body": {with(func(h *pki.Hop) { h.IsdAS = core + 7 }), nil},
		"a newer TRC":            {with(func(h *pki.Hop) { h.Serial = 2 }), ErrNoTRC},
		"a newer base":           {with(func(h *pki.Hop) { h.Base = 2 }), ErrNoTRC},
		"another ISD":            {with(func(h *pki.Hop) { h.IsdAS, h.KeyOf = core+1<<48, core+1<<48 }), ErrNoTRC},
		"another key with the id": {with(func(h *pki.Hop) {
			certificate := *stranger.Certificate
			certificate.SubjectKeyId = hops[0].Signer.SubjectKeyId
			h.Signer = &pki.Signer{Certificate: &certificate, Key: stranger.Key}
		}), ErrSignature},
	} {
		err := verify(m, c.segment, time.Now(), nil)
		if err == nil || c.wanted != nil && !errors.Is(err, c.wanted) {
			t.Errorf("%s: %v", name, err)
		}
	}
}

func TestChainsExpire(t *testing.T) {
	isd := pki.NewISD(t, elliptic.P256(), 1)
	now := time.Now()
	soon := pki.New(t, elliptic.P256(), "as", "1-ff00:0:110", isd.CA1, pki.OfAS, pki.Until(now.Add(7*time.Hour)))
	m := materialOf(t, isd, chainOf(t, soon, isd.CA1))
	segment := pki.Segment(t, now, 1, pki.Hop{Signer: soon, IsdAS: core, KeyOf: core, Base: 1, Serial: 1})
	known := NewMemory(10)
	pki.Must(t, verify(m, segment, now, known))
	for _, at := range []time.Time{now.Add(8 * time.Hour), now.Add(-3 * time.Hour), now.Add(30 * time.Hour)} {
		if err := verify(m, segment, at, known); !errors.Is(err, ErrNoChain) {
			t.Error(at, err)
		}
	}
}

// TestASegmentIsValidNoLongerThanItsChains has segments of six hours (64 times 337.5 seconds), whose signers
// have certificates that begin and end at moments before and after the segment.
func TestASegmentIsValidNoLongerThanItsChains(t *testing.T) {
	p256 := elliptic.P256()
	isd := pki.NewISD(t, p256, 1)
	made := time.Now().Truncate(time.Second).Add(-time.Minute)
	const life = 6 * time.Hour
	for number, c := range []struct {
		begins, ends time.Duration // after the segment's own beginning and end
		isGood       bool
	}{
		{-time.Hour, time.Hour, true}, {0, 0, true}, {time.Second, 0, false}, {0, -time.Second, false},
		{30 * time.Second, time.Hour, false}, {-time.Hour, -5 * time.Hour, false},
	} {
		its := pki.New(t, p256, "as", "1-ff00:0:110", isd.CA1, pki.OfAS, pki.From(made.Add(c.begins)), pki.Until(made.Add(life+c.ends)))
		long := isd.AS(t, p256, "1-ff00:0:111")
		m := materialOf(t, isd, chainOf(t, its, isd.CA1), chainOf(t, long, isd.CA1))
		one := pki.Hop{Signer: its, IsdAS: core, KeyOf: core, Base: 1, Serial: 1}
		two := pki.Hop{Signer: long, IsdAS: leaf, KeyOf: leaf, Base: 1, Serial: 1}
		for _, hops := range [][]pki.Hop{{one}, {one, two}, {two, one}} {
			err := verify(m, pki.Segment(t, made, 1, hops...), time.Now(), nil)
			if c.isGood && err != nil || !c.isGood && !errors.Is(err, ErrValidity) {
				t.Errorf("case %d, %d hops: %v", number, len(hops), err)
			}
		}
	}
}

// TestTheFirstHopFieldToExpireCounts has the window of a segment of three entries.
func TestTheFirstHopFieldToExpireCounts(t *testing.T) {
	entry := func(expTime uint64) []byte {
		hop := pki.Number(nil, 3, expTime)
		body := pki.Bytes(pki.Number(nil, 1, core), 3, pki.Bytes(nil, 1, hop))
		return pki.Bytes(nil, 1, pki.Bytes(nil, 1, pki.Bytes(nil, 2, body)))
	}
	segment := pki.Bytes(nil, 1, pki.Number(nil, 1, 1_700_000_000))
	for _, expTime := range []uint64{63, 1, 255} {
		segment = pki.Bytes(segment, 2, entry(expTime))
	}
	entries, err := Entries(segment)
	pki.Must(t, err)
	for _, one := range entries {
		if one.Segment.NotBefore.Unix() != 1_700_000_000 || one.Segment.NotAfter.Unix() != 1_700_000_675 {
			t.Error(one.Segment)
		}
	}
	if _, err := Entries(pki.Bytes(nil, 1, pki.Number(nil, 1, 1<<32))); err == nil {
		t.Error("a timestamp beyond 32 bits")
	}
}

func TestChainsThatAreRefused(t *testing.T) {
	p256 := elliptic.P256()
	isd, other := pki.NewISD(t, p256, 1), pki.NewISD(t, p256, 2)
	voter := pki.New(t, p256, "voter", "1-ff00:0:110", nil, pki.Authority(1), pki.For(pki.Regular))
	ofVoter := pki.New(t, p256, "ca", "1-ff00:0:110", voter, pki.Authority(0))
	ofOther := pki.New(t, p256, "ca", "1-ff00:0:110", other.Root1, pki.Authority(0))
	plain := pki.New(t, p256, "ca", "1-ff00:0:110", isd.Root1)
	trc := parseTRC(t, isd.TRC)
	as := func(by *pki.Signer, set ...func(*x509.Certificate)) *pki.Signer {
		return pki.New(t, p256, "as", "1-ff00:0:111", by, set...)
	}
	for name, c := range map[string]struct{ as, ca *pki.Signer }{
		"no usage":            {as(isd.CA1), isd.CA1},
		"no signatures":       {as(isd.CA1, pki.OfAS, func(it *x509.Certificate) { it.KeyUsage = x509.KeyUsageKeyAgreement }), isd.CA1},
		"no time stamps":      {as(isd.CA1, pki.OfAS, func(it *x509.Certificate) { it.ExtKeyUsage = it.ExtKeyUsage[1:] }), isd.CA1},
		"an authority":        {as(isd.CA1, pki.OfAS, pki.Authority(0)), isd.CA1},
		"no CA":               {as(plain, pki.OfAS), plain},
		"another CA":          {as(isd.CA1, pki.OfAS), ofOther},
		"a root that is none": {as(ofVoter, pki.OfAS), ofVoter},
		"another ISD's root":  {as(ofOther, pki.OfAS), ofOther},
		"another ISD":         {pki.New(t, p256, "as", "2-ff00:0:111", isd.CA1, pki.OfAS), isd.CA1},
		"no AS":               {pki.New(t, p256, "as", "1-x", isd.CA1, pki.OfAS), isd.CA1},
		"the root itself":     {as(isd.Root1, pki.OfAS), isd.Root1},
	} {
		chain, err := ParseChain(c.as.Raw, c.ca.Raw)
		if err == nil {
			_, err = NewMaterial([]*TRC{trc}, []*Chain{chain})
		}
		if err == nil {
			t.Errorf("%s is not refused", name)
		}
	}
}

func TestTRCsOfOpenSSL(t *testing.T) {
	isd := pki.NewISD(t, elliptic.P384(), 1)
	pki.Must(t, parseTRC(t, pki.SignByOpenSSL(t, isd.Base, isd.Sensitive, isd.Regular)).VerifyBase())
	isd = pki.NewISD(t, elliptic.P256(), 1)
	raw := pki.SignByOpenSSL(t, isd.Base, isd.Sensitive, isd.Regular)
	left := 0
	for at := range raw {
		bad := append([]byte(nil), raw...)
		bad[at] ^= 0x01
		if trc, err := ParseTRC(bad); err == nil && trc.VerifyBase() == nil {
			left++
		}
	}
	// Versions, unsigned parameters and the list of digests are not signed.
	if left > 40 {
		t.Errorf("%d of %d bytes do not matter", left, len(raw))
	}
}

func TestBaseTRCs(t *testing.T) {
	isd := pki.NewISD(t, elliptic.P256(), 1)
	verifyAll := func(change func(*pki.Payload), signers ...*pki.Signer) error {
		payload := *isd.Base
		change(&payload)
		trc, err := ParseTRC(pki.Sign(t, &payload, signers...))
		if err == nil {
			err = trc.VerifyBase()
		}
		return err
	}
	same := func(*pki.Payload) {}
	pki.Must(t, verifyAll(same, isd.Sensitive, isd.Regular))
	for name, err := range map[string]error{
		"one voter":    verifyAll(same, isd.Sensitive),
		"no voter":     verifyAll(same),
		"a root signs": verifyAll(same, isd.Sensitive, isd.Regular, isd.Root1),
		"a quorum":     verifyAll(func(p *pki.Payload) { p.Quorum = 2 }, isd.Sensitive, isd.Regular),
		"votes":        verifyAll(func(p *pki.Payload) { p.Votes = []int{0} }, isd.Sensitive, isd.Regular),
		"grace":        verifyAll(func(p *pki.Payload) { p.Grace = 1 }, isd.Sensitive, isd.Regular),
		"a version":    verifyAll(func(p *pki.Payload) { p.Version = 1 }, isd.Sensitive, isd.Regular),
		"no core":      verifyAll(func(p *pki.Payload) { p.CoreASes = nil }, isd.Sensitive, isd.Regular),
		"no member":    verifyAll(func(p *pki.Payload) { p.Authoritative = []string{"ff00:0:111"} }, isd.Sensitive, isd.Regular),
		"too long":     verifyAll(func(p *pki.Payload) { p.Validity.NotAfter = p.Validity.NotAfter.AddDate(1, 0, 0) }, isd.Sensitive, isd.Regular),
		"no root":      verifyAll(func(p *pki.Payload) { p.Certificates = p.Certificates[:2] }, isd.Sensitive, isd.Regular),
		"twice":        verifyAll(func(p *pki.Payload) { p.Certificates = append(p.Certificates, p.Certificates[0]) }, isd.Sensitive, isd.Regular),
	} {
		if err == nil {
			t.Errorf("%s is not refused", name)
		}
	}
}

// TestCertificatesOfATRCAreOfItsISD has a TRC refused where a voter or a root is of another ISD, names
// several ASes, or one that is none; and taken where a voter names none.
func TestCertificatesOfATRCAreOfItsISD(t *testing.T) {
	p256 := elliptic.P256()
	with := func(names ...string) func(*x509.Certificate) {
		return func(it *x509.Certificate) {
			it.Subject.ExtraNames = it.Subject.ExtraNames[:1]
			for _, name := range names {
				it.Subject.ExtraNames = append(it.Subject.ExtraNames, pkix.AttributeTypeAndValue{Type: pki.ISDAS, Value: name})
			}
		}
	}
	for number, c := range []struct {
		sensitive, regular, root func(*x509.Certificate)
		isGood                   bool
	}{
		{with("1-ff00:0:110"), with("1-ff00:0:111"), with("1-ff00:0:110"), true},
		{with(), with(), with("1-ff00:0:110"), true},
		{with("2-ff00:0:110"), with("1-ff00:0:110"), with("1-ff00:0:110"), false},
		{with("1-ff00:0:110"), with("2-ff00:0:110"), with("1-ff00:0:110"), false},
		{with("1-ff00:0:110"), with("1-ff00:0:110"), with("2-ff00:0:110"), false},
		{with("1-ff00:0:110", "1-ff00:0:111"), with(), with("1-ff00:0:110"), false},
		{with("110"), with(), with("1-ff00:0:110"), false},
	} {
		sensitive := pki.New(t, p256, "sensitive", "", nil, pki.For(pki.Sensitive), c.sensitive)
		regular := pki.New(t, p256, "regular", "", nil, pki.For(pki.Regular), c.regular)
		root := pki.New(t, p256, "root", "", nil, pki.Authority(1), pki.For(pki.Root), c.root)
		trc, err := ParseTRC(pki.Sign(t, pki.NewPayload(1, 1, 1, sensitive, regular, root), sensitive, regular))
		if err == nil {
			err = trc.VerifyBase()
		}
		if (err == nil) != c.isGood {
			t.Errorf("case %d: %v", number, err)
		}
	}
}

// TestReasonsArePlain has the errors of faulty TRCs and chains be in words of their formats, without the
// names of Go's types.
func TestReasonsArePlain(t *testing.T) {
	isd := pki.NewISD(t, elliptic.P256(), 1)
	as := isd.AS(t, elliptic.P256(), "1-ff00:0:110")
	var reasons []error
	for at := 0; at < len(isd.TRC); at++ {
		bad := append([]byte(nil), isd.TRC...)
		bad[at] ^= 0x5a
		_, err := ParseTRC(bad)
		_, cut := ParseTRC(isd.TRC[:at])
		reasons = append(reasons, err, cut)
	}
	for at := 0; at < len(as.Raw); at++ {
		bad := append([]byte(nil), as.Raw...)
		bad[at] ^= 0x5a
		_, err := ParseChain(bad, isd.CA1.Raw)
		_, cut := ParseChain(as.Raw, isd.CA1.Raw[:at%len(isd.CA1.Raw)])
		reasons = append(reasons, err, cut)
	}
	for _, err := range reasons {
		if err != nil && (strings.Contains(err.Error(), "asn1") || strings.Contains(err.Error(), "{")) {
			t.Fatal(err)
		}
	}
	for _, c := range []struct {
		raw    []byte
		wanted string
	}{
		{[]byte("x"), "it is no CMS message: the bytes are cut, or no DER of this form"},
		{append(isd.TRC[:len(isd.TRC):len(isd.TRC)], 0), "it is no CMS message: there are bytes after the end"},
	} {
		if _, err := ParseTRC(c.raw); err == nil || err.Error() != c.wanted {
			t.Error(err)
		}
	}
}

// FuzzTRC has no bytes that end the program.
func FuzzTRC(f *testing.F) {
	isd := pki.NewISD(f, elliptic.P256(), 1)
	f.Add(isd.TRC)
	f.Fuzz(func(t *testing.T, raw []byte) {
		trc, err := ParseTRC(raw)
		if err == nil && trc.VerifyBase() == nil && trc.VerifyUpdate(trc) == nil {
			t.Error("its own update")
		}
	})
}

// FuzzRegistration has no registration that ends the program, and none that passes with an entry
// that was not signed.
func FuzzRegistration(f *testing.F) {
	m, good, _ := twoHops(f, 1)
	signed, err := Entries(good)
	pki.Must(f, err)
	f.Add(pki.Registration(2, good))
	f.Fuzz(func(t *testing.T, registration []byte) {
		Segments(registration, func(segment []byte) error {
			if verify(m, segment, time.Now(), nil) != nil {
				return nil
			}
			entries, _ := Entries(segment)
			for number, it := range entries {
				if number >= len(signed) || !bytes.Equal(it.headerAndBody, signed[number].headerAndBody) ||
					!bytes.Equal(bytes.Join(it.before, nil), bytes.Join(signed[number].before, nil)) {
					t.Errorf("entry %d was not signed", number+1)
				}
			}
			return nil
		})
	})
}

func BenchmarkEntries(b *testing.B) {
	for algorithm, curve := range map[uint64]elliptic.Curve{1: elliptic.P256(), 2: elliptic.P384(), 3: elliptic.P521()} {
		isd := pki.NewISD(b, curve, 1)
		as := isd.AS(b, curve, "1-ff00:0:110")
		m := materialOf(b, isd, chainOf(b, as, isd.CA1))
		segment := pki.Segment(b, time.Now(), algorithm, pki.Hop{Signer: as, IsdAS: core, KeyOf: core, Base: 1, Serial: 1})
		b.Run(curve.Params().Name, func(b *testing.B) {
			for i := 0; i < b.N; i++ {
				pki.Must(b, verify(m, segment, time.Now(), nil))
			}
		})
	}
}
