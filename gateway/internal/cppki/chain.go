package cppki

import (
	"bytes"
	"crypto/ecdsa"
	"crypto/x509"
	"encoding/pem"
	"errors"
	"fmt"
	"time"
)

// Chain is an AS certificate and the certificate of the CA that has issued it.
type Chain struct {
	ISDAS  ISDAS
	AS, CA *x509.Certificate

	key     *ecdsa.PublicKey
	anchors []anchor
}

// anchor is a TRC with a root that has signed the chain's CA, and when all certificates are valid.
type anchor struct {
	trc    *TRC
	window Window
}

// ParseChain reads a chain from DER.
func ParseChain(as, ca []byte) (*Chain, error) {
	c := &Chain{}
	var err error
	if c.AS, err = parseCertificate(as); err != nil {
		return nil, fmt.Errorf("AS certificate: %w", err)
	}
	if c.CA, err = parseCertificate(ca); err != nil {
		return nil, fmt.Errorf("CA certificate: %w", err)
	}
	return c, c.check()
}

// ParseChainPEM reads a chain from PEM: the AS certificate, then that of its CA.
func ParseChainPEM(content []byte) (*Chain, error) {
	var found [][]byte
	for block, rest := pem.Decode(content); block != nil; block, rest = pem.Decode(rest) {
		found = append(found, block.Bytes)
	}
	if len(found) != 2 {
		return nil, errors.New("not an AS certificate and a CA certificate")
	}
	return ParseChain(found[0], found[1])
}

// check looks at the two certificates alone.
func (c *Chain) check() (err error) {
	if c.ISDAS, err = Subject(c.AS); err != nil {
		return fmt.Errorf("AS certificate: %w", err)
	}
	isOfAS := false
	for _, usage := range c.AS.ExtKeyUsage {
		isOfAS = isOfAS || usage == usageOfAS
	}
	var isECDSA bool
	c.key, isECDSA = c.AS.PublicKey.(*ecdsa.PublicKey)
	switch {
	case c.AS.IsCA || !isOfAS || c.AS.KeyUsage&x509.KeyUsageDigitalSignature == 0 || c.AS.KeyUsage&x509.KeyUsageCertSign != 0:
		return errors.New("AS certificate: it is not for signatures of an AS")
	case !isECDSA || len(c.AS.SubjectKeyId) == 0:
		return errors.New("AS certificate: its key is not of ECDSA, or has no id")
	case !c.CA.IsCA || c.CA.MaxPathLen != 0 || c.CA.KeyUsage&x509.KeyUsageCertSign == 0:
		return errors.New("CA certificate: it is not for certificates of ASes alone")
	case len(c.AS.UnhandledCriticalExtensions)+len(c.CA.UnhandledCriticalExtensions) > 0:
		return errors.New("an extension that is not known is critical")
	}
	issuer, err := Subject(c.CA)
	if err == nil && issuer.ISD() != c.ISDAS.ISD() {
		err = errors.New("it is of another ISD")
	}
	if err != nil {
		return fmt.Errorf("CA certificate: %w", err)
	}
	if err := issued(c.AS, c.CA); err != nil {
		return fmt.Errorf("AS certificate: %w", err)
	}
	return nil
}

// issued verifies that an authority has issued a certificate.
func issued(one, by *x509.Certificate) error {
	if !bytes.Equal(one.RawIssuer, by.RawSubject) {
		return errors.New("its issuer is another")
	}
	return one.CheckSignatureFrom(by)
}

// anchorIn answers the anchor of the chain in a TRC, where one of its roots has signed the CA.
func (c *Chain) anchorIn(trc *TRC) (anchor, error) {
	if trc.ISD != c.ISDAS.ISD() {
		return anchor{}, errors.New("the TRC is another ISD's")
	}
	err := errors.New("the TRC has no root")
	for _, one := range trc.of(root) {
		if err = issued(c.CA, one); err == nil {
			window := windowOf(c.AS).and(windowOf(c.CA)).and(windowOf(one))
			if window.NotAfter.Before(window.NotBefore) {
				return anchor{}, errors.New("its certificates are never valid together")
			}
			return anchor{trc, window}, nil
		}
	}
	return anchor{}, fmt.Errorf("no root of %s has issued the CA certificate: %w", trc.Name(), err)
}

// isGood answers whether the chain is valid at a moment by one of these TRCs.
func (c *Chain) isGood(trcs []*TRC, at time.Time) bool {
	for _, it := range c.anchors {
		for _, trc := range trcs {
			if it.trc == trc && it.window.Has(at) {
				return true
			}
		}
	}
	return false
}

// Expires answers when the chain ends to be valid, by the TRCs that are known.
func (c *Chain) Expires() (latest time.Time) {
	for _, it := range c.anchors {
		if end := it.window.and(it.trc.Window).NotAfter; end.After(latest) {
			latest = end
		}
	}
	return latest
}

// covers answers whether both certificates are valid in all of a window.
func (c *Chain) covers(window Window) bool {
	return windowOf(c.AS).and(windowOf(c.CA)).covers(window)
}
