package pathdb

import (
	"bytes"
	"encoding/hex"
	"errors"
	"fmt"
	"strings"
)

// ErrID is the error of an id that is empty, too long, or not of hexadecimal digits.
var ErrID = errors.New("pathdb: no id of a segment")

const idSize = 32

type id = [idSize]byte

// span has the ids from a first to a last one, both among them.
type span struct{ first, last id }

// every has all ids.
func every() span {
	return beginningWith(nil)
}

// beginningWith answers the ids with these first bytes.
func beginningWith(start []byte) (s span) {
	for number := range s.last {
		s.last[number] = 0xff
	}
	copy(s.first[:], start)
	copy(s.last[:], start)
	return s
}

// spanOf answers the ids with these first bytes, of which there is one at least.
func spanOf(start []byte) (span, error) {
	if len(start) == 0 || len(start) > idSize {
		return span{}, fmt.Errorf("%w: %d bytes", ErrID, len(start))
	}
	return beginningWith(start), nil
}

// spanOfText answers the ids with these first digits, of which there is one at least.
func spanOfText(digits string) (s span, err error) {
	missing := 2*idSize - len(digits)
	if digits == "" || missing < 0 {
		return span{}, fmt.Errorf("%w: %d digits", ErrID, len(digits))
	}
	if _, err := hex.Decode(s.first[:], []byte(digits+strings.Repeat("0", missing))); err != nil {
		return span{}, fmt.Errorf("%w: %q", ErrID, digits)
	}
	_, err = hex.Decode(s.last[:], []byte(digits+strings.Repeat("f", missing)))
	return s, err
}

// before answers the id before the first one; nil where there is none. A list after it begins with the
// span.
func (s span) before() *id {
	before := s.first
	for number := idSize - 1; number >= 0; number-- {
		before[number]--
		if before[number] != 0xff {
			return &before
		}
	}
	return nil
}

func (s span) has(of id) bool {
	return bytes.Compare(s.first[:], of[:]) <= 0 && bytes.Compare(of[:], s.last[:]) <= 0
}

// endsBy answers whether no id of the span comes after this one.
func (s span) endsBy(of id) bool {
	return bytes.Compare(of[:], s.last[:]) >= 0
}
