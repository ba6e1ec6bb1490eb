package testpki

import (
	"crypto"
	"crypto/ecdsa"
	"crypto/rand"
	"crypto/x509"
	"encoding/asn1"
	"encoding/pem"
	"fmt"
	"math/big"
	"os"
	"os/exec"
	"path/filepath"
	"testing"
	"time"
)

// Payload is what a TRC says.
type Payload struct {
	Version       int
	ID            struct{ ISD, Serial, Base int64 }
	Validity      Validity
	Grace         int64
	NoTrustReset  bool
	Votes         []int
	Quorum        int
	CoreASes      []string
	Authoritative []string
	Description   string `asn1:"utf8"`
	Certificates  []asn1.RawValue
}

// Validity is when a TRC is valid.
type Validity struct {
	NotBefore time.Time `asn1:"generalized"`
	NotAfter  time.Time `asn1:"generalized"`
}

// NewPayload answers a payload for an ISD with these certificates: a base TRC where base and serial
// number are the same. It is valid from an hour ago for a day.
func NewPayload(isd, base, serial int64, certificates ...*Signer) *Payload {
	now := time.Now().UTC().Truncate(time.Second)
	p := &Payload{
		Validity: Validity{now.Add(-time.Hour), now.Add(24 * time.Hour)},
		Votes:    []int{}, Quorum: 1,
		CoreASes: []string{"ff00:0:110"}, Authoritative: []string{"ff00:0:110"}, Description: "a test",
	}
	p.ID.ISD, p.ID.Base, p.ID.Serial = isd, base, serial
	for _, one := range certificates {
		p.Certificates = append(p.Certificates, asn1.RawValue{FullBytes: one.Raw})
	}
	return p
}

type algorithm struct {
	OID asn1.ObjectIdentifier
}

type attribute struct {
	Type   asn1.ObjectIdentifier
	Values []asn1.RawValue `asn1:"set"`
}

type signerInfo struct {
	Version int
	ID      struct {
		Issuer asn1.RawValue
		Serial *big.Int
	}
	Digest     algorithm
	Attributes asn1.RawValue
	Algorithm  algorithm
	Signature  []byte
}

type signedData struct {
	Version      int
	Digests      []algorithm `asn1:"set"`
	Encapsulated struct {
		Type    asn1.ObjectIdentifier
		Content []byte `asn1:"explicit,tag:0"`
	}
	Signers []signerInfo `asn1:"set"`
}

var (
	oidSignedData  = asn1.ObjectIdentifier{1, 2, 840, 113549, 1, 7, 2}
	oidData        = asn1.ObjectIdentifier{1, 2, 840, 113549, 1, 7, 1}
	oidContentType = asn1.ObjectIdentifier{1, 2, 840, 113549, 1, 9, 3}
	oidDigest      = asn1.ObjectIdentifier{1, 2, 840, 113549, 1, 9, 4}
	oidSHA512      = asn1.ObjectIdentifier{2, 16, 840, 1, 101, 3, 4, 2, 3}
	oidECDSA512    = asn1.ObjectIdentifier{1, 2, 840, 10045, 4, 3, 4}
)

// Sign answers the CMS message of a payload that these have signed.
func Sign(t testing.TB, payload *Payload, signers ...*Signer) []byte {
	t.Helper()
	content, err := asn1.Marshal(*payload)
	Must(t, err)
	data := signedData{Version: 1, Digests: []algorithm{{oidSHA512}}}
	data.Encapsulated.Type, data.Encapsulated.Content = oidData, content
	for _, one := range signers {
		data.Signers = append(data.Signers, signatureOf(t, content, one))
	}
	raw, err := asn1.Marshal(struct {
		Type    asn1.ObjectIdentifier
		Content signedData `asn1:"explicit,tag:0"`
	}{oidSignedData, data})
	Must(t, err)
	return raw
}

func signatureOf(t testing.TB, content []byte, by *Signer) (info signerInfo) {
	kind, err := asn1.Marshal(oidData)
	Must(t, err)
	digest, err := asn1.Marshal(sum(content))
	Must(t, err)
	set, err := asn1.MarshalWithParams([]attribute{
		{oidContentType, []asn1.RawValue{{FullBytes: kind}}}, {oidDigest, []asn1.RawValue{{FullBytes: digest}}},
	}, "set")
	Must(t, err)
	info.Signature, err = ecdsa.SignASN1(rand.Reader, by.Key, sum(set))
	Must(t, err)
	tagged := append([]byte(nil), set...)
	tagged[0] = 0xa0
	info.Version = 1
	info.ID.Issuer.FullBytes, info.ID.Serial = by.RawIssuer, by.SerialNumber
	info.Digest, info.Algorithm = algorithm{oidSHA512}, algorithm{oidECDSA512}
	info.Attributes.FullBytes = tagged
	return info
}

func sum(content []byte) []byte {
	of := crypto.SHA512.New()
	of.Write(content)
	return of.Sum(nil)
}

// SignByOpenSSL answers a CMS message as Sign does, made by `openssl cms`.
func SignByOpenSSL(t testing.TB, payload *Payload, signers ...*Signer) []byte {
	t.Helper()
	folder := t.TempDir()
	content, err := asn1.Marshal(*payload)
	Must(t, err)
	in, out := filepath.Join(folder, "in"), filepath.Join(folder, "out")
	Must(t, os.WriteFile(in, content, 0o600))
	words := []string{"cms", "-sign", "-in", in, "-out", out, "-outform", "der", "-md", "sha512",
		"-nodetach", "-nocerts", "-nosmimecap", "-binary"}
	for i, one := range signers {
		name := filepath.Join(folder, fmt.Sprint(i))
		key, err := x509.MarshalECPrivateKey(one.Key)
		Must(t, err)
		Must(t, os.WriteFile(name+".crt", PEM(one.Raw), 0o600))
		Must(t, os.WriteFile(name+".key", pem.EncodeToMemory(&pem.Block{Type: "EC PRIVATE KEY", Bytes: key}), 0o600))
		words = append(words, "-signer", name+".crt", "-inkey", name+".key")
	}
	if text, err := exec.Command("openssl", words...).CombinedOutput(); err != nil {
		t.Fatal(err, string(text))
	}
	raw, err := os.ReadFile(out)
	Must(t, err)
	return raw
}

// PEM answers certificates in PEM.
func PEM(certificates ...[]byte) (out []byte) {
	for _, one := range certificates {
		out = append(out, pem.EncodeToMemory(&pem.Block{Type: "CERTIFICATE", Bytes: one})...)
	}
	return out
}
