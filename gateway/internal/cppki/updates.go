package cppki

import (
	"crypto/x509"
	"errors"
	"fmt"
)

// signed is the set of certificates whose signatures a TRC has.
type signed map[string]bool

func (s signed) by(one *x509.Certificate) bool { return s[string(one.Raw)] }

// signedBy answers who of these has signed. A signature of another, or one that is not good, is an
// error.
func (t *TRC) signedBy(among []*x509.Certificate) (signed, error) {
	found := signed{}
	for i := range t.signers {
		by, err := t.signers[i].signer(t.content, among)
		if err != nil {
			return nil, fmt.Errorf("signature %d: %w", i, err)
		}
		found[string(by.Raw)] = true
	}
	return found, nil
}

// VerifyBase verifies that all voting certificates of a base TRC have signed it. That the TRC is to be
// trusted is for whoever has put it in its place.
func (t *TRC) VerifyBase() error {
	if t.Base != t.Serial {
		return errors.New("it is no base TRC")
	}
	voters := append(t.of(sensitive), t.of(regular)...)
	found, err := t.signedBy(voters)
	if err != nil {
		return err
	}
	for _, one := range voters {
		if !found.by(one) {
			return errors.New("a voter has not signed")
		}
	}
	return nil
}

// VerifyUpdate verifies that a TRC is the update of its predecessor: its serial number is the next one,
// enough of the predecessor's voters of one class have voted and signed, and each new voter has signed.
// An update by regular votes changes regular voters and roots alone.
func (t *TRC) VerifyUpdate(predecessor *TRC) error {
	switch {
	case t.ISD != predecessor.ISD || t.Base != predecessor.Base || t.Serial != predecessor.Serial+1:
		return fmt.Errorf("it is no update of %s", predecessor.Name())
	case t.NoTrustReset != predecessor.NoTrustReset:
		return errors.New("it changes noTrustReset")
	case !predecessor.Has(t.NotBefore):
		return errors.New("it begins while its predecessor is not valid")
	}
	voters, by, err := t.voters(predecessor)
	if err != nil {
		return err
	}
	found, err := t.signedBy(append(append([]*x509.Certificate(nil), predecessor.Certificates...), t.Certificates...))
	if err != nil {
		return err
	}
	for _, one := range voters {
		if !found.by(one) {
			return errors.New("a voter has not signed")
		}
	}
	for _, its := range []class{sensitive, regular} {
		for _, one := range t.of(its) {
			if !predecessor.has(one, its) && !found.by(one) {
				return errors.New("a new voter has not signed")
			}
		}
	}
	if by == regular {
		return t.checkRegular(predecessor, voters, found)
	}
	return nil
}

// voters answers the predecessor's certificates that have voted, and their class.
func (t *TRC) voters(predecessor *TRC) (found []*x509.Certificate, by class, err error) {
	seen := map[int]bool{}
	for _, vote := range t.Votes {
		if vote < 0 || vote >= len(predecessor.Certificates) || seen[vote] {
			return nil, 0, errors.New("a vote is of no certificate, or comes twice")
		}
		seen[vote] = true
		its := predecessor.classes[vote]
		if its == root || len(found) > 0 && its != by {
			return nil, 0, errors.New("the votes are not all sensitive or all regular")
		}
		by = its
		found = append(found, predecessor.Certificates[vote])
	}
	if len(found) < predecessor.Quorum {
		return nil, 0, fmt.Errorf("%d votes, and the quorum is %d", len(found), predecessor.Quorum)
	}
	return found, by, nil
}

// checkRegular looks at what an update by regular votes may not change, and whether those whose
// certificates it replaces agree: a voter has voted, a root has signed.
func (t *TRC) checkRegular(predecessor *TRC, voters []*x509.Certificate, found signed) error {
	if t.Quorum != predecessor.Quorum || !sameSet(t.CoreASes, predecessor.CoreASes) ||
		!sameSet(t.Authoritative, predecessor.Authoritative) {
		return errors.New("regular votes change no quorum and no ASes")
	}
	for _, its := range []class{sensitive, regular, root} {
		if len(t.of(its)) != len(predecessor.of(its)) {
			return errors.New("regular votes change no number of certificates")
		}
	}
	for _, one := range predecessor.of(sensitive) {
		if !t.has(one, sensitive) {
			return errors.New("regular votes change no sensitive voter")
		}
	}
	voted := signed{}
	for _, one := range voters {
		voted[string(one.Raw)] = true
	}
	for _, one := range predecessor.of(regular) {
		if !t.has(one, regular) && !voted.by(one) {
			return errors.New("a regular voter is replaced, and has not voted")
		}
	}
	for _, one := range predecessor.of(root) {
		if !t.has(one, root) && !found.by(one) {
			return errors.New("a root is replaced, and has not signed")
		}
	}
	return nil
}

// sameSet compares lists of ASes whose texts were read before.
func sameSet(one, other []string) bool {
	a, _ := setOf(one)
	b, _ := setOf(other)
	for as := range a {
		if !b[as] {
			return false
		}
	}
	return len(a) == len(b)
}
