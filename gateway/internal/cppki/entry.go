package cppki

import (
	"crypto"
	"crypto/ecdsa"
	"crypto/sha256"
	"errors"
	"fmt"
	"time"

	"google.golang.org/protobuf/encoding/protowire"
)

// Entry is an AS entry of a segment, as far as its signature is concerned.
type Entry struct {
	// Local is the AS that the entry is of, and Signer the AS whose key has signed it.
	Local, Signer ISDAS
	// KeyID is the id of that key, and Base and Serial the latest TRC that the signer knew.
	KeyID        []byte
	Base, Serial int64
	// Segment is from the segment's timestamp to its expiry.
	Segment Window

	hash                     crypto.Hash
	headerAndBody, signature []byte
	associated, expTime      uint64
	before                   [][]byte // what is signed after the entry itself
}

var (
	// ErrSignature is the error of an entry whose signature is not good.
	ErrSignature = errors.New("its signature is not good")
	// ErrNoChain is the error of an entry for whose key there is no chain.
	ErrNoChain = errors.New("there is no valid chain for its key")
	// ErrValidity is the error of an entry whose key has chains, none of which is valid as long as the
	// segment is.
	ErrValidity = errors.New("no chain for its key is valid from the segment's timestamp to its expiry")
	// ErrNoTRC is the error of an entry whose signer knows a TRC that is not there.
	ErrNoTRC = errors.New("its signer knows a TRC that is not here")
)

// Segments gives the PathSegments of a SegmentsRegistrationRequest to a function, in their order.
func Segments(registration []byte, do func(segment []byte) error) error {
	return within(registration, fieldMapEntry, func(entry []byte) error {
		return within(entry, fieldMapValue, func(list []byte) error {
			return within(list, fieldListedSegment, do)
		})
	})
}

// within gives the contents of each field of a number to a function.
func within(message []byte, number protowire.Number, do func([]byte) error) error {
	return each(message, func(it field) error {
		if it.number != number || !it.isBytes {
			return nil
		}
		return do(it.content)
	})
}

// Entries reads the entries of a PathSegment.
func Entries(segment []byte) ([]*Entry, error) {
	var info []byte
	var messages [][]byte
	err := each(segment, func(it field) error {
		switch {
		case it.isBytes && it.number == fieldInfo:
			info = it.content
		case it.isBytes && it.number == fieldEntry:
			messages = append(messages, it.content)
		}
		return nil
	})
	if err != nil {
		return nil, err
	}
	var found []*Entry
	before := [][]byte{info}
	for _, message := range messages {
		entry, err := readEntry(message)
		if err != nil {
			return nil, fmt.Errorf("entry %d: %w", len(found)+1, err)
		}
		entry.before = before[:len(before):len(before)]
		before = append(before, entry.headerAndBody, entry.signature)
		found = append(found, entry)
	}
	return found, setWindow(found, info)
}

// setWindow notes when a segment is valid with its entries: it expires with the first of its hop fields.
func setWindow(entries []*Entry, info []byte) error {
	timestamp, least := uint64(0), uint64(mostExpTime)
	err := each(info, func(it field) error {
		if it.number == fieldTimestamp && !it.isBytes {
			timestamp = it.value
		}
		return nil
	})
	if err != nil {
		return err
	}
	for _, one := range entries {
		if one.expTime < least {
			least = one.expTime
		}
	}
	if timestamp > mostTimestamp {
		return errors.New("the timestamp is out of range")
	}
	made := time.Unix(int64(timestamp), 0)
	for _, one := range entries {
		one.Segment = Window{made, made.Add(time.Duration(least+1) * expiryUnit)}
	}
	return nil
}

func readEntry(message []byte) (*Entry, error) {
	outer, err := contents(message, fieldSigned)
	if err != nil {
		return nil, err
	}
	parts, err := contents(outer[0], fieldHeaderAndBody, fieldSignature)
	if err != nil {
		return nil, err
	}
	e := &Entry{headerAndBody: parts[0], signature: parts[1]}
	inner, err := contents(e.headerAndBody, fieldHeader, fieldBody)
	if err != nil {
		return nil, err
	}
	if err := e.readHeader(inner[0]); err != nil {
		return nil, err
	}
	return e, e.readBody(inner[1])
}

func (e *Entry) readBody(body []byte) error {
	var hop []byte
	err := each(body, func(it field) error {
		switch {
		case it.number == fieldLocalISDAS && !it.isBytes:
			e.Local = ISDAS(it.value)
		case it.number == fieldHopEntry:
			hop = it.content
		case it.number == fieldPeerEntry:
			return checkPeer(it.content)
		}
		return nil
	})
	if err != nil {
		return err
	}
	if err := checkNumbers(body, limitsOfBody); err != nil {
		return err
	}
	if err := checkNumbers(hop, limitsOfHop); err != nil {
		return err
	}
	fields, err := contents(hop, fieldHopField)
	if err != nil {
		return err
	}
	return each(fields[0], func(it field) error {
		if it.number == fieldExpTime && !it.isBytes {
			e.expTime = it.value
		}
		return nil
	})
}

func (e *Entry) readHeader(header []byte) error {
	var key []byte
	err := each(header, func(it field) error {
		switch it.number {
		case fieldAlgorithm:
			e.hash = hashOf[it.value]
		case fieldKeyID:
			key = it.content
		case fieldAssociatedLength:
			e.associated = it.value
		}
		return nil
	})
	if err != nil {
		return err
	}
	return each(key, func(it field) error {
		switch it.number {
		case fieldKeyISDAS:
			e.Signer = ISDAS(it.value)
		case fieldSubjectKeyID:
			e.KeyID = it.content
		case fieldKeyTRCBase:
			e.Base = int64(it.value)
		case fieldKeyTRCSerial:
			e.Serial = int64(it.value)
		}
		return nil
	})
}

// Known is a memory of signatures that were good before.
type Known interface {
	// Has answers whether a signature was good before; Add notes that one is.
	Has(key [sha256.Size]byte) bool
	Add(key [sha256.Size]byte)
}

// Verify verifies the signature of an entry by the material at a moment. The certificates are looked at
// each time; that a key has signed some bytes is asked of known before it is worked out.
func (m *Material) Verify(e *Entry, at time.Time, known Known) error {
	length := uint64(0)
	for _, it := range e.before {
		length += uint64(len(it))
	}
	switch {
	case e.Signer != e.Local:
		return fmt.Errorf("it is signed by %v", e.Signer)
	case e.hash == 0 || len(e.KeyID) == 0:
		return errors.New("its header names no algorithm that is known, or no key")
	case e.associated != length:
		return errors.New("its header names another length of what is signed with it")
	}
	chains, err := m.chainsOf(e, at)
	if err != nil {
		return err
	}
	digest := sum(e.hash, append([][]byte{e.headerAndBody}, e.before...)...)
	for _, chain := range chains {
		key := memoryKey(chain, digest, e.signature)
		if known.Has(key) {
			return nil
		}
		if ecdsa.VerifyASN1(chain.key, digest, e.signature) {
			known.Add(key)
			return nil
		}
	}
	return ErrSignature
}

// chainsOf answers the chains of an entry's key that are good at a moment, and valid as long as its segment.
func (m *Material) chainsOf(e *Entry, at time.Time) (found []*Chain, err error) {
	latest := m.TRC(e.Signer.ISD(), 0, 0)
	if latest == nil || latest.Base < e.Base || latest.Base == e.Base && latest.Serial < e.Serial {
		return nil, ErrNoTRC
	}
	good := m.good(e.Signer, e.KeyID, at)
	for _, chain := range good {
		if chain.covers(e.Segment) {
			found = append(found, chain)
		}
	}
	switch {
	case len(good) == 0:
		return nil, ErrNoChain
	case len(found) == 0:
		return nil, ErrValidity
	}
	return found, nil
}

// memoryKey is of what was signed, of the signature, and of the key with its curve.
func memoryKey(chain *Chain, digest, signature []byte) (key [sha256.Size]byte) {
	of := sha256.New()
	for _, it := range [][]byte{chain.AS.RawSubjectPublicKeyInfo, digest, signature} {
		of.Write(protowire.AppendVarint(nil, uint64(len(it))))
		of.Write(it)
	}
	of.Sum(key[:0])
	return key
}
