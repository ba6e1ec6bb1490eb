package cppki

import (
	"errors"

	"google.golang.org/protobuf/encoding/protowire"
)

// field is a field of a message. Value is that of a number, Content that of bytes; pathd refuses known
// fields of other types.
type field struct {
	number  protowire.Number
	isBytes bool
	value   uint64
	content []byte
}

var errMessage = errors.New("a message can't be read")

// each gives each number and each field of bytes of a message to a function, in their order.
func each(message []byte, do func(field) error) error {
	for len(message) > 0 {
		number, kind, n := protowire.ConsumeTag(message)
		if n < 0 {
			return errMessage
		}
		message = message[n:]
		it := field{number: number}
		switch kind {
		case protowire.VarintType:
			it.value, n = protowire.ConsumeVarint(message)
		case protowire.BytesType:
			it.isBytes = true
			it.content, n = protowire.ConsumeBytes(message)
		case protowire.Fixed32Type, protowire.Fixed64Type:
			if n = protowire.ConsumeFieldValue(number, kind, message); n >= 0 {
				message = message[n:]
				continue
			}
		default:
			return errMessage
		}
		if n < 0 {
			return errMessage
		}
		message = message[n:]
		if err := do(it); err != nil {
			return err
		}
	}
	return nil
}

// contents answers the bytes of these fields of a message: nil for one that is absent, the last where
// one comes again.
func contents(message []byte, numbers ...protowire.Number) ([][]byte, error) {
	found := make([][]byte, len(numbers))
	err := each(message, func(it field) error {
		for at, number := range numbers {
			if it.isBytes && it.number == number {
				found[at] = it.content
			}
		}
		return nil
	})
	return found, err
}
