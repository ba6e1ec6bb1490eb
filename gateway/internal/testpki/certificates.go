// Package testpki makes what tests need of the control-plane PKI: certificates, TRCs, chains and
// signed segments. It is written apart from package cppki, which it tests, and is in no program.
package testpki

import (
	"crypto/ecdsa"
	"crypto/elliptic"
	"crypto/rand"
	"crypto/sha1"
	"crypto/x509"
	"crypto/x509/pkix"
	"encoding/asn1"
	"math/big"
	"sync/atomic"
	"testing"
	"time"
)

// The object identifiers of SCION.
var (
	ISDAS     = asn1.ObjectIdentifier{1, 3, 6, 1, 4, 1, 55324, 1, 2, 1}
	Sensitive = asn1.ObjectIdentifier{1, 3, 6, 1, 4, 1, 55324, 1, 3, 1}
	Regular   = asn1.ObjectIdentifier{1, 3, 6, 1, 4, 1, 55324, 1, 3, 2}
	Root      = asn1.ObjectIdentifier{1, 3, 6, 1, 4, 1, 55324, 1, 3, 3}
)

var serial atomic.Int64

// Must ends a test by an error.
func Must(t testing.TB, err error) {
	t.Helper()
	if err != nil {
		t.Fatal(err)
	}
}

// Signer is a certificate with its key.
type Signer struct {
	*x509.Certificate
	Key *ecdsa.PrivateKey
}

// New makes a certificate of an AS for these curves, signed by another one, or by itself.
func New(t testing.TB, curve elliptic.Curve, name, isdAS string, by *Signer, set ...func(*x509.Certificate)) *Signer {
	t.Helper()
	key, err := ecdsa.GenerateKey(curve, rand.Reader)
	Must(t, err)
	return Renew(t, key, name, isdAS, by, set...)
}

// Renew makes such a certificate of a key that there is.
func Renew(t testing.TB, key *ecdsa.PrivateKey, name, isdAS string, by *Signer, set ...func(*x509.Certificate)) *Signer {
	t.Helper()
	id := sha1.Sum(elliptic.Marshal(key.Curve, key.X, key.Y))
	it := &x509.Certificate{
		SerialNumber: big.NewInt(serial.Add(1)),
		SubjectKeyId: id[:],
		Subject: pkix.Name{ExtraNames: []pkix.AttributeTypeAndValue{
			{Type: asn1.ObjectIdentifier{2, 5, 4, 3}, Value: name}, {Type: ISDAS, Value: isdAS}}},
		NotBefore: time.Now().Add(-2 * time.Hour),
		NotAfter:  time.Now().Add(48 * time.Hour),
	}
	for _, change := range set {
		change(it)
	}
	if by == nil {
		by = &Signer{it, key}
	}
	der, err := x509.CreateCertificate(rand.Reader, it, by.Certificate, key.Public(), by.Key)
	Must(t, err)
	made, err := x509.ParseCertificate(der)
	Must(t, err)
	return &Signer{made, key}
}

// For has a certificate be for votes, or for a root.
func For(usages ...asn1.ObjectIdentifier) func(*x509.Certificate) {
	return func(it *x509.Certificate) {
		it.UnknownExtKeyUsage = usages
		it.ExtKeyUsage = []x509.ExtKeyUsage{x509.ExtKeyUsageTimeStamping}
	}
}

// Authority has a certificate be one of an authority, above so many others.
func Authority(above int) func(*x509.Certificate) {
	return func(it *x509.Certificate) {
		it.IsCA, it.BasicConstraintsValid = true, true
		it.MaxPathLen, it.MaxPathLenZero = above, above == 0
		it.KeyUsage = x509.KeyUsageCertSign
	}
}

// OfAS has a certificate be one of an AS.
func OfAS(it *x509.Certificate) {
	it.KeyUsage = x509.KeyUsageDigitalSignature
	it.ExtKeyUsage = []x509.ExtKeyUsage{x509.ExtKeyUsageTimeStamping, x509.ExtKeyUsageServerAuth, x509.ExtKeyUsageClientAuth}
}

// Until has a certificate be valid until a moment; From since one.
func Until(at time.Time) func(*x509.Certificate) {
	return func(it *x509.Certificate) { it.NotAfter = at }
}

// From has a certificate be valid since a moment.
func From(at time.Time) func(*x509.Certificate) {
	return func(it *x509.Certificate) { it.NotBefore = at }
}
