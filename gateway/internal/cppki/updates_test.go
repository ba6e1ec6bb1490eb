package cppki

import (
	"crypto/elliptic"
	"testing"
	"time"

	pki "pathd/gateway/internal/testpki"
)

// voters are what updates are tried with: two voters of each class, and two roots.
type voters struct {
	sensitive, regular, roots [2]*pki.Signer
	base                      *TRC
}

func newVoters(t *testing.T) *voters {
	p256 := elliptic.P256()
	v := &voters{}
	for i := range v.sensitive {
		v.sensitive[i] = pki.New(t, p256, "sensitive", "1-ff00:0:110", nil, pki.For(pki.Sensitive))
		v.regular[i] = pki.New(t, p256, "regular", "1-ff00:0:110", nil, pki.For(pki.Regular))
		v.roots[i] = pki.New(t, p256, "root", "1-ff00:0:110", nil, pki.Authority(1), pki.For(pki.Root))
	}
	payload := pki.NewPayload(1, 1, 1, v.all()...)
	payload.Quorum = 2
	v.base = parseTRC(t, pki.Sign(t, payload, append(v.sensitive[:], v.regular[:]...)...))
	pki.Must(t, v.base.VerifyBase())
	return v
}

// all answers the certificates in their order: sensitive 0 and 1, regular 2 and 3, roots 4 and 5.
func (v *voters) all() []*pki.Signer {
	return []*pki.Signer{v.sensitive[0], v.sensitive[1], v.regular[0], v.regular[1], v.roots[0], v.roots[1]}
}

// update answers whether an update is refused.
func (v *voters) update(t *testing.T, certificates []*pki.Signer, votes []int, change func(*pki.Payload), signers ...*pki.Signer) error {
	payload := pki.NewPayload(1, 1, 2, certificates...)
	payload.Quorum, payload.Votes, payload.Grace = 2, votes, 3600
	payload.Validity.NotBefore = time.Now().UTC().Add(-time.Minute).Truncate(time.Second)
	if change != nil {
		change(payload)
	}
	trc, err := ParseTRC(pki.Sign(t, payload, signers...))
	if err != nil {
		return err
	}
	return trc.VerifyUpdate(v.base)
}

func TestUpdates(t *testing.T) {
	v := newVoters(t)
	p256 := elliptic.P256()
	s, r, roots := v.sensitive, v.regular, v.roots
	newRegular := pki.New(t, p256, "regular", "1-ff00:0:110", nil, pki.For(pki.Regular))
	newSensitive := pki.New(t, p256, "sensitive", "1-ff00:0:110", nil, pki.For(pki.Sensitive))
	newRoot := pki.New(t, p256, "root", "1-ff00:0:110", nil, pki.Authority(1), pki.For(pki.Root))
	quorum := func(p *pki.Payload) { p.Quorum = 1 }
	cores := func(p *pki.Payload) { p.CoreASes = append(p.CoreASes, "ff00:0:120") }
	replaced := func(at int, by *pki.Signer) []*pki.Signer {
		all := v.all()
		all[at] = by
		return all
	}
	for name, c := range map[string]struct {
		certificates []*pki.Signer
		votes        []int
		change       func(*pki.Payload)
		signers      []*pki.Signer
		isGood       bool
	}{
		"regular":                         {v.all(), []int{2, 3}, nil, r[:], true},
		"sensitive":                       {v.all(), []int{0, 1}, nil, s[:], true},
		"votes below the quorum":          {v.all(), []int{2}, nil, r[:1], false},
		"a vote twice":                    {v.all(), []int{2, 2}, nil, r[:], false},
		"a vote of nobody":                {v.all(), []int{2, 6}, nil, r[:], false},
		"a vote of a root":                {v.all(), []int{4, 5}, nil, roots[:], false},
		"votes of two classes":            {v.all(), []int{1, 2}, nil, []*pki.Signer{s[1], r[0]}, false},
		"a vote without its signature":    {v.all(), []int{2, 3}, nil, r[:1], false},
		"another's signature":             {v.all(), []int{2, 3}, nil, []*pki.Signer{r[0], r[1], newRegular}, false},
		"a quorum by regular votes":       {v.all(), []int{2, 3}, quorum, r[:], false},
		"a quorum by sensitive votes":     {v.all(), []int{0, 1}, quorum, s[:], true},
		"core ASes by regular votes":      {v.all(), []int{2, 3}, cores, r[:], false},
		"core ASes by sensitive votes":    {v.all(), []int{0, 1}, cores, s[:], true},
		"a regular voter":                 {replaced(2, newRegular), []int{2, 3}, nil, []*pki.Signer{r[0], r[1], newRegular}, true},
		"a new voter that has not signed": {replaced(2, newRegular), []int{2, 3}, nil, r[:], false},
		"a sensitive voter by regular":    {replaced(0, newSensitive), []int{2, 3}, nil, []*pki.Signer{r[0], r[1], newSensitive}, false},
		"a sensitive voter by sensitive":  {replaced(0, newSensitive), []int{0, 1}, nil, []*pki.Signer{s[0], s[1], newSensitive}, true},
		"a root that has signed":          {replaced(4, newRoot), []int{2, 3}, nil, []*pki.Signer{r[0], r[1], roots[0]}, true},
		"a root that has not signed":      {replaced(4, newRoot), []int{2, 3}, nil, r[:], false},
		"a root by sensitive votes":       {replaced(4, newRoot), []int{0, 1}, nil, s[:], true},
		"a serial number too far":         {v.all(), []int{2, 3}, func(p *pki.Payload) { p.ID.Serial = 3 }, r[:], false},
		"another base":                    {v.all(), []int{2, 3}, func(p *pki.Payload) { p.ID.Base, p.ID.Serial = 2, 3 }, r[:], false},
		"another ISD":                     {v.all(), []int{2, 3}, func(p *pki.Payload) { p.ID.ISD = 2 }, r[:], false},
		"trust resets":                    {v.all(), []int{0, 1}, func(p *pki.Payload) { p.NoTrustReset = true }, s[:], false},
		"no overlap": {v.all(), []int{2, 3}, func(p *pki.Payload) {
			p.Validity.NotBefore, p.Validity.NotAfter = time.Now().UTC().Add(25*time.Hour), time.Now().UTC().Add(26*time.Hour)
		}, r[:], false},
	} {
		if err := v.update(t, c.certificates, c.votes, c.change, c.signers...); (err == nil) != c.isGood {
			t.Errorf("%s: %v", name, err)
		}
	}
}

// TestGrace has a root that an update drops: its chains are good in the grace period alone.
func TestGrace(t *testing.T) {
	v := newVoters(t)
	p256 := elliptic.P256()
	ca := pki.New(t, p256, "ca", "1-ff00:0:110", v.roots[0], pki.Authority(0))
	as := pki.New(t, p256, "as", "1-ff00:0:110", ca, pki.OfAS)
	newRoot := pki.New(t, p256, "root", "1-ff00:0:110", nil, pki.Authority(1), pki.For(pki.Root))
	certificates := v.all()
	certificates[4] = newRoot
	payload := pki.NewPayload(1, 1, 2, certificates...)
	payload.Quorum, payload.Votes, payload.Grace = 2, []int{2, 3}, 3600
	begun := time.Now().UTC().Add(time.Hour).Truncate(time.Second)
	payload.Validity.NotBefore = begun
	update := parseTRC(t, pki.Sign(t, payload, v.regular[0], v.regular[1], v.roots[0]))
	m, err := NewMaterial([]*TRC{update, v.base}, []*Chain{chainOf(t, as, ca)})
	pki.Must(t, err)
	segment := pki.Segment(t, time.Now(), 1, pki.Hop{Signer: as, IsdAS: core, KeyOf: core, Base: 1, Serial: 1})
	for offset, isGood := range map[time.Duration]bool{
		-time.Minute: true, time.Minute: true, 59 * time.Minute: true, 61 * time.Minute: false,
	} {
		if err := verify(m, segment, begun.Add(offset), nil); (err == nil) != isGood {
			t.Errorf("%v after the update: %v", offset, err)
		}
	}
	if _, err := NewMaterial([]*TRC{update}, nil); err == nil {
		t.Error("an update without its predecessor")
	}
}
