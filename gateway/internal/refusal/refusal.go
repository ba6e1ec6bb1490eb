// Package refusal has the status of a call that is refused by each code of pathd, and its text.
package refusal

import (
	"fmt"

	"google.golang.org/grpc/codes"

	"pathd"
)

// Code is the error of a request that pathd has refused. docs/PROTOCOL.md has the codes.
type Code = pathd.Code

// Meaning says what a code means. Name is that of docs/PROTOCOL.md, and empty where it has none.
type Meaning struct {
	Status codes.Code
	Name   string
	Text   string
}

// MeaningOf answers what a code means: codes.Internal for a code that the table does not have.
func MeaningOf(code Code) Meaning {
	if it, isKnown := table[code]; isKnown {
		return it
	}
	return Meaning{codes.Internal, "", "an unknown code"}
}

// NumberOf answers a code as the trailing metadata has it, such as 0x43.
func NumberOf(code Code) string {
	return fmt.Sprintf("%#02x", byte(code))
}

// TextOf answers a code with its name and its text.
func TextOf(code Code) string {
	it := MeaningOf(code)
	if it.Name == "" {
		return NumberOf(code) + " " + it.Text
	}
	return NumberOf(code) + " " + it.Name + ": " + it.Text
}
