package cppki

import "google.golang.org/protobuf/encoding/protowire"

// RangeError is the error of an entry with a number that pathd takes and SCION's control services do not.
type RangeError struct{ reason string }

func (e *RangeError) Error() string { return e.reason }

// limit is the most that a number may be, and what to say of one above it.
type limit struct {
	most   uint64
	reason string
}

// The limits of numbers, by the fields of their messages.
var (
	limitsOfBody = map[protowire.Number]limit{fieldMTU: {mostMTU, "its MTU is above 2^31 - 1"}}
	limitsOfHop  = map[protowire.Number]limit{fieldIngressMTU: {mostMTU, "its ingress MTU is above 2^31 - 1"}}
	limitsOfPeer = map[protowire.Number]limit{
		fieldPeerInterface: {mostInterface, "a peer's interface is above 65,535"},
		fieldPeerMTU:       {mostMTU, "a peer's MTU is above 2^31 - 1"},
	}
)

// checkNumbers looks at the numbers of a message.
func checkNumbers(message []byte, limits map[protowire.Number]limit) error {
	return each(message, func(it field) error {
		if its, isBound := limits[it.number]; isBound && !it.isBytes && it.value > its.most {
			return &RangeError{its.reason}
		}
		return nil
	})
}

// checkPeer looks at a PeerEntry, whose signature is that of the entry with it.
func checkPeer(peer []byte) error {
	its := ISDAS(0)
	err := each(peer, func(it field) error {
		if it.number == fieldPeerISDAS && !it.isBytes {
			its = ISDAS(it.value)
		}
		return nil
	})
	if err != nil {
		return err
	}
	if its.ISD() == 0 || its<<16 == 0 {
		return &RangeError{"a peer's ISD-AS has a zero part"}
	}
	return checkNumbers(peer, limitsOfPeer)
}
