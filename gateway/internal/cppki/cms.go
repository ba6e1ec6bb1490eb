package cppki

import (
	"bytes"
	"crypto"
	"crypto/ecdsa"
	_ "crypto/sha256" // a hash of signers
	_ "crypto/sha512" // two more
	"crypto/x509"
	"encoding/asn1"
	"errors"
	"fmt"
	"math/big"
	"strings"
)

// As RFC 5652 has them, as far as a TRC needs.
type contentInfo struct {
	Type    asn1.ObjectIdentifier
	Content signedData `asn1:"explicit,tag:0"`
}

type signedData struct {
	Version      int
	Digests      asn1.RawValue `asn1:"set"`
	Encapsulated encapsulated
	Certificates asn1.RawValue `asn1:"optional,tag:0"`
	CRLs         asn1.RawValue `asn1:"optional,tag:1"`
	Signers      []signerInfo  `asn1:"set"`
}

type encapsulated struct {
	Type    asn1.ObjectIdentifier
	Content []byte `asn1:"explicit,optional,tag:0"`
}

type algorithm struct {
	OID        asn1.ObjectIdentifier
	Parameters asn1.RawValue `asn1:"optional"`
}

// signerInfo names its certificate by issuer and serial number: one by its key is not read.
type signerInfo struct {
	Version    int
	ID         signerID
	Digest     algorithm
	Attributes asn1.RawValue `asn1:"optional,tag:0"`
	Algorithm  algorithm
	Signature  []byte
	Unsigned   asn1.RawValue `asn1:"optional,tag:1"`
}

type signerID struct {
	Issuer asn1.RawValue
	Serial *big.Int
}

type attribute struct {
	Type   asn1.ObjectIdentifier
	Values asn1.RawValue `asn1:"set"`
}

var (
	oidSignedData = asn1.ObjectIdentifier{1, 2, 840, 113549, 1, 7, 2}
	oidData       = asn1.ObjectIdentifier{1, 2, 840, 113549, 1, 7, 1}
	oidType       = asn1.ObjectIdentifier{1, 2, 840, 113549, 1, 9, 3}
	oidDigest     = asn1.ObjectIdentifier{1, 2, 840, 113549, 1, 9, 4}

	digests = map[string]crypto.Hash{
		"2.16.840.1.101.3.4.2.1": crypto.SHA256,
		"2.16.840.1.101.3.4.2.2": crypto.SHA384,
		"2.16.840.1.101.3.4.2.3": crypto.SHA512,
	}
	// signatures have the hash that each algorithm goes with.
	signatures = map[string]crypto.Hash{
		"1.2.840.10045.4.3.2": crypto.SHA256,
		"1.2.840.10045.4.3.3": crypto.SHA384,
		"1.2.840.10045.4.3.4": crypto.SHA512,
	}
)

const (
	attributesTag = 0xa0 // of signed attributes, within a signerInfo
	setTag        = 0x31 // of a SET, as which they are signed
)

// unmarshal reads DER to its last byte. Its errors are in plain words, as those of encoding/asn1 name
// Go's types.
func unmarshal(content []byte, into any) error {
	rest, err := asn1.Unmarshal(content, into)
	switch {
	case err != nil:
		return errors.New("the bytes are cut, or no DER of this form")
	case len(rest) > 0:
		return errors.New("there are bytes after the end")
	}
	return nil
}

// parseCertificate reads a certificate from DER, with such errors.
func parseCertificate(der []byte) (*x509.Certificate, error) {
	one, err := x509.ParseCertificate(der)
	if err != nil && strings.Contains(err.Error(), "asn1") {
		return nil, errors.New("the bytes are cut, or no DER of a certificate")
	}
	return one, err
}

// readSignedData answers the content of a CMS message, and who has signed it.
func readSignedData(raw []byte) ([]byte, []signerInfo, error) {
	var outer contentInfo
	if err := unmarshal(raw, &outer); err != nil {
		return nil, nil, fmt.Errorf("it is no CMS message: %w", err)
	}
	data := &outer.Content
	if !outer.Type.Equal(oidSignedData) || !data.Encapsulated.Type.Equal(oidData) {
		return nil, nil, errors.New("CMS: not SignedData of data")
	}
	if len(data.Signers) > 2*mostInTRC {
		return nil, nil, errors.New("CMS: too many signers")
	}
	return data.Encapsulated.Content, data.Signers, nil
}

// signer answers which of these certificates has signed the content, where one has.
func (s *signerInfo) signer(content []byte, among []*x509.Certificate) (*x509.Certificate, error) {
	hash, isKnown := digests[s.Digest.OID.String()]
	if !isKnown || signatures[s.Algorithm.OID.String()] != hash {
		return nil, errors.New("an algorithm that is not known")
	}
	signed, err := s.signedAttributes(sum(hash, content))
	if err != nil {
		return nil, err
	}
	digest := sum(hash, signed)
	isNamed := false
	for _, one := range among {
		if !bytes.Equal(one.RawIssuer, s.ID.Issuer.FullBytes) || s.ID.Serial == nil || one.SerialNumber.Cmp(s.ID.Serial) != 0 {
			continue
		}
		isNamed = true
		if key, isECDSA := one.PublicKey.(*ecdsa.PublicKey); isECDSA && ecdsa.VerifyASN1(key, digest, s.Signature) {
			return one, nil
		}
	}
	if !isNamed {
		return nil, errors.New("a signer that is not known")
	}
	return nil, errors.New("a signature that is not good")
}

// signedAttributes answers the bytes that are signed. They have to name the type of the content, and
// its digest.
func (s *signerInfo) signedAttributes(wanted []byte) ([]byte, error) {
	set := append([]byte(nil), s.Attributes.FullBytes...)
	if len(set) == 0 || set[0] != attributesTag {
		return nil, errors.New("no signed attributes")
	}
	set[0] = setTag
	var attributes []attribute
	if rest, err := asn1.UnmarshalWithParams(set, &attributes, "set"); err != nil || len(rest) > 0 {
		return nil, errors.New("the signed attributes can't be read")
	}
	var types, ofDigest int
	for _, one := range attributes {
		switch {
		case one.Type.Equal(oidType):
			var kind asn1.ObjectIdentifier
			if unmarshal(one.Values.Bytes, &kind) != nil || !kind.Equal(oidData) {
				return nil, errors.New("the signed type is another")
			}
			types++
		case one.Type.Equal(oidDigest):
			var digest []byte
			if unmarshal(one.Values.Bytes, &digest) != nil || !bytes.Equal(digest, wanted) {
				return nil, errors.New("the signed digest is another")
			}
			ofDigest++
		}
	}
	if types != 1 || ofDigest != 1 {
		return nil, errors.New("the signed attributes lack one, or have one twice")
	}
	return set, nil
}

func sum(hash crypto.Hash, parts ...[]byte) []byte {
	of := hash.New()
	for _, it := range parts {
		of.Write(it)
	}
	return of.Sum(nil)
}
