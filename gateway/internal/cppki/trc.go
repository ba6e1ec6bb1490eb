package cppki

import (
	"bytes"
	"crypto/x509"
	"encoding/asn1"
	"encoding/pem"
	"errors"
	"fmt"
	"time"
)

// TRC is a trust root configuration. Its signatures are verified by VerifyBase or VerifyUpdate.
type TRC struct {
	ISD, Base, Serial int64
	Window
	// Grace is how long the predecessor is valid beside this one.
	Grace                   time.Duration
	NoTrustReset            bool
	Votes                   []int
	Quorum                  int
	CoreASes, Authoritative []string
	// Certificates are all that it has, in their order.
	Certificates []*x509.Certificate
	// Raw is the CMS message, in DER.
	Raw []byte

	classes []class // of the certificates
	content []byte
	signers []signerInfo
}

// class is what a certificate of a TRC is for.
type class int

const (
	sensitive class = iota
	regular
	root
)

// Window is a time in which something is valid: also at its ends.
type Window struct{ NotBefore, NotAfter time.Time }

// Has answers whether a moment is in the window.
func (w Window) Has(at time.Time) bool { return !at.Before(w.NotBefore) && !at.After(w.NotAfter) }

// covers answers whether all moments of another window are in this one.
func (w Window) covers(other Window) bool {
	return !other.NotBefore.Before(w.NotBefore) && !other.NotAfter.After(w.NotAfter)
}

// and answers the moments that are in both.
func (w Window) and(other Window) Window {
	if other.NotBefore.After(w.NotBefore) {
		w.NotBefore = other.NotBefore
	}
	if other.NotAfter.Before(w.NotAfter) {
		w.NotAfter = other.NotAfter
	}
	return w
}

func windowOf(one *x509.Certificate) Window { return Window{one.NotBefore, one.NotAfter} }

// Name answers the name that the TRC's file usually has.
func (t *TRC) Name() string { return fmt.Sprintf("ISD%d-B%d-S%d", t.ISD, t.Base, t.Serial) }

// ParseTRC reads a TRC in DER or PEM. It looks at what it says, and not at who has signed it.
func ParseTRC(raw []byte) (*TRC, error) {
	if block, _ := pem.Decode(raw); block != nil {
		raw = block.Bytes
	}
	content, signers, err := readSignedData(raw)
	if err != nil {
		return nil, err
	}
	var it payload
	if err := unmarshal(content, &it); err != nil {
		return nil, fmt.Errorf("its content is no TRC: %w", err)
	}
	if it.Version != trcVersion {
		return nil, fmt.Errorf("version %d is not known", it.Version)
	}
	trc := &TRC{
		ISD: it.ID.ISD, Base: it.ID.Base, Serial: it.ID.Serial,
		Window:       Window{it.Validity.NotBefore, it.Validity.NotAfter},
		Grace:        time.Duration(it.Grace) * time.Second,
		NoTrustReset: it.NoTrustReset, Votes: it.Votes, Quorum: it.Quorum,
		CoreASes: it.CoreASes, Authoritative: it.Authoritative,
		Raw: raw, content: content, signers: signers,
	}
	if it.Grace < 0 || it.Grace > int64(100*365*24*time.Hour/time.Second) {
		return nil, errors.New("the grace period is out of range")
	}
	if len(it.Description) > mostDescription {
		return nil, errors.New("the description is too long")
	}
	if err := trc.readCertificates(it.Certificates); err != nil {
		return nil, err
	}
	return trc, trc.check()
}

func (t *TRC) readCertificates(all []asn1.RawValue) error {
	if len(all) > mostInTRC {
		return errors.New("too many certificates")
	}
	for at, one := range all {
		certificate, err := parseCertificate(one.FullBytes)
		if err != nil {
			return fmt.Errorf("certificate %d: %w", at, err)
		}
		its, err := classOf(certificate)
		if err == nil {
			err = t.checkCertificate(certificate)
		}
		if err != nil {
			return fmt.Errorf("certificate %d: %w", at, err)
		}
		t.Certificates = append(t.Certificates, certificate)
		t.classes = append(t.classes, its)
	}
	return nil
}

// classOf answers what a certificate is for, which has to be one thing.
func classOf(certificate *x509.Certificate) (found class, err error) {
	count := 0
	for _, usage := range certificate.UnknownExtKeyUsage {
		for its, oid := range []asn1.ObjectIdentifier{sensitive: oidSensitive, regular: oidRegular, root: oidRoot} {
			if usage.Equal(oid) {
				found = class(its)
				count++
			}
		}
	}
	switch {
	case count != 1:
		return 0, errors.New("it has no usage of a TRC, or several")
	case found == root && (!certificate.IsCA || certificate.KeyUsage&x509.KeyUsageCertSign == 0):
		return 0, errors.New("it is no root")
	case found != root && certificate.IsCA:
		return 0, errors.New("it is for votes, and an authority")
	}
	return found, nil
}

// checkCertificate looks at a certificate beside those before it. One for votes may leave out its ISD-AS.
func (t *TRC) checkCertificate(certificate *x509.Certificate) error {
	its, err := Subject(certificate)
	if err == nil && its.ISD() != t.ISD {
		err = fmt.Errorf("it is of another ISD: %v", its)
	}
	if err != nil && err != errNoISDAS {
		return err
	}
	if !windowOf(certificate).covers(t.Window) {
		return errors.New("it is not valid as long as the TRC")
	}
	if !bytes.Equal(certificate.RawIssuer, certificate.RawSubject) {
		return errors.New("it is not signed by itself")
	}
	if err := certificate.CheckSignature(certificate.SignatureAlgorithm, certificate.RawTBSCertificate, certificate.Signature); err != nil {
		return err
	}
	for _, one := range t.Certificates {
		if bytes.Equal(one.RawIssuer, certificate.RawIssuer) && one.SerialNumber.Cmp(certificate.SerialNumber) == 0 {
			return errors.New("another has its issuer and its serial number")
		}
	}
	return nil
}

// check looks at all but the certificates alone.
func (t *TRC) check() error {
	switch {
	case t.ISD < 1 || t.ISD > 0xffff || t.Base < 1 || t.Serial < t.Base:
		return errors.New("the id is out of range")
	case !t.NotBefore.Before(t.NotAfter):
		return errors.New("it is never valid")
	case t.Quorum < 1 || t.Quorum > mostQuorum:
		return errors.New("the quorum is out of range")
	case len(t.of(sensitive)) < t.Quorum || len(t.of(regular)) < t.Quorum:
		return errors.New("it has fewer voters than its quorum")
	case len(t.of(root)) == 0:
		return errors.New("it has no root")
	case t.Base == t.Serial && (len(t.Votes) > 0 || t.Grace != 0):
		return errors.New("a base TRC has neither votes nor a grace period")
	case t.Base != t.Serial && len(t.Votes) == 0:
		return errors.New("it has no votes")
	case len(t.Votes) > mostInTRC || len(t.CoreASes) > mostInTRC || len(t.CoreASes) == 0:
		return errors.New("it has no core AS, or too much of something")
	}
	cores, err := setOf(t.CoreASes)
	if err != nil {
		return fmt.Errorf("core ASes: %w", err)
	}
	authoritative, err := setOf(t.Authoritative)
	if err != nil || len(authoritative) == 0 {
		return fmt.Errorf("authoritative ASes: there is none, or %v", err)
	}
	for as := range authoritative {
		if !cores[as] {
			return errors.New("an authoritative AS is no core AS")
		}
	}
	return nil
}

// setOf reads ASes, of which none may come twice.
func setOf(texts []string) (map[uint64]bool, error) {
	found := map[uint64]bool{}
	for _, text := range texts {
		as, err := parseAS(text)
		if err != nil {
			return nil, err
		}
		if found[as] {
			return nil, fmt.Errorf("%s comes twice", text)
		}
		found[as] = true
	}
	return found, nil
}

// of answers the certificates of a class.
func (t *TRC) of(wanted class) (found []*x509.Certificate) {
	for at, its := range t.classes {
		if its == wanted {
			found = append(found, t.Certificates[at])
		}
	}
	return found
}

// has answers whether a certificate is among those of the TRC, in a class.
func (t *TRC) has(certificate *x509.Certificate, in class) bool {
	for at, one := range t.Certificates {
		if t.classes[at] == in && one.Equal(certificate) {
			return true
		}
	}
	return false
}
