// Package cppki verifies AS entries by the control-plane PKI of SCION: TRCs, chains of certificates,
// and signed messages. It reads no files and asks nobody.
//
// The formats are from memory and not from the sources of an implementation. This file has all that a
// real TRC, chain and segment would settle, and docs/GATEWAY.md says of which it is less sure.
package cppki

import (
	"crypto"
	"crypto/x509"
	"encoding/asn1"
	"time"
)

// Of certificates: the attribute of a subject that has the ISD-AS, and the usages of the certificates
// in a TRC.
var (
	oidISDAS     = asn1.ObjectIdentifier{1, 3, 6, 1, 4, 1, 55324, 1, 2, 1}
	oidSensitive = asn1.ObjectIdentifier{1, 3, 6, 1, 4, 1, 55324, 1, 3, 1}
	oidRegular   = asn1.ObjectIdentifier{1, 3, 6, 1, 4, 1, 55324, 1, 3, 2}
	oidRoot      = asn1.ObjectIdentifier{1, 3, 6, 1, 4, 1, 55324, 1, 3, 3}
)

// usageOfAS is the usage that a certificate of an AS has to have, beside digitalSignature.
const usageOfAS = x509.ExtKeyUsageTimeStamping

// Of TRCs.
const (
	trcVersion      = 0
	mostQuorum      = 255
	mostDescription = 1024
	mostInTRC       = 255 // certificates, votes and ASes
)

// payload is the payload of a TRC, in DER. An absent noTrustReset is false.
type payload struct {
	Version       int
	ID            payloadID
	Validity      payloadValidity
	Grace         int64 // seconds
	NoTrustReset  bool  `asn1:"optional"`
	Votes         []int // places of the predecessor's certificates, from 0 on
	Quorum        int
	CoreASes      []string
	Authoritative []string
	Description   string `asn1:"utf8"`
	Certificates  []asn1.RawValue
}

// payloadID has the serial number before the base number.
type payloadID struct{ ISD, Serial, Base int64 }

type payloadValidity struct {
	NotBefore time.Time `asn1:"generalized"`
	NotAfter  time.Time `asn1:"generalized"`
}

// Numbers of the fields of signed messages: SignedMessage, its HeaderAndBody, the Header, the key's
// VerificationKeyID, and the body of an AS entry.
const (
	fieldHeaderAndBody = 1
	fieldSignature     = 2

	fieldHeader = 1
	fieldBody   = 2

	fieldAlgorithm        = 1
	fieldKeyID            = 2
	fieldAssociatedLength = 5

	fieldKeyISDAS      = 1
	fieldSubjectKeyID  = 2
	fieldKeyTRCBase    = 3
	fieldKeyTRCSerial  = 4
	fieldLocalISDAS    = 1
	fieldHopEntry      = 3
	fieldPeerEntry     = 4
	fieldMTU           = 5
	fieldHopField      = 1 // of a HopEntry
	fieldIngressMTU    = 2
	fieldExpTime       = 3 // of a HopField
	fieldPeerISDAS     = 1 // of a PeerEntry
	fieldPeerInterface = 2
	fieldPeerMTU       = 3
	fieldInfo          = 1 // of a PathSegment
	fieldTimestamp     = 1 // of a SegmentInformation
	fieldEntry         = 2
	fieldSigned        = 1 // of an ASEntry
	fieldMapEntry      = 1 // of a SegmentsRegistrationRequest
	fieldMapValue      = 2
	fieldListedSegment = 1 // of Segments
)

// Of segments: a hop field expires 337.5 seconds times one more than its exp_time after the timestamp.
const (
	expiryUnit    = 337_500 * time.Millisecond
	mostExpTime   = 255
	mostTimestamp = 1<<32 - 1 // seconds since 1970
	mostMTU       = 1<<31 - 1
	mostInterface = 1<<16 - 1
)

// hashOf has the hash of each signature algorithm: ECDSA with it.
var hashOf = map[uint64]crypto.Hash{1: crypto.SHA256, 2: crypto.SHA384, 3: crypto.SHA512}
