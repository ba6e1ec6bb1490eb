// Package roles says which clients may make which calls, by their certificates.
package roles

import (
	"bufio"
	"bytes"
	"crypto/x509"
	"fmt"
	"os"
	"strings"
	"sync/atomic"

	"pathd/gateway/internal/cppki"
)

// Action is what a rule allows.
type Action string

// The actions.
const (
	LookUp   Action = "look-up"
	Register Action = "register"
	Remove   Action = "remove"
)

// Roles are the rules of a file.
type Roles struct {
	file  string
	rules atomic.Pointer[[]rule]
}

// rule allows an action to any client, to those of an AS, or to those with a common name.
type rule struct {
	action Action
	isAny  bool
	as     cppki.ISDAS
	name   string
}

// Open answers the rules of a file.
func Open(file string) (*Roles, error) {
	r := &Roles{file: file}
	return r, r.Read()
}

// Read reads the file again, and keeps the rules where a line is faulty.
func (r *Roles) Read() error {
	content, err := os.ReadFile(r.file)
	if err != nil {
		return fmt.Errorf("roles: %w", err)
	}
	var rules []rule
	lines := bufio.NewScanner(bytes.NewReader(content))
	for number := 1; lines.Scan(); number++ {
		line := strings.TrimSpace(lines.Text())
		if line == "" || strings.HasPrefix(line, "#") {
			continue
		}
		one, err := parse(line)
		if err != nil {
			return fmt.Errorf("roles: %s: line %d: %w", r.file, number, err)
		}
		rules = append(rules, one)
	}
	if err := lines.Err(); err != nil {
		return fmt.Errorf("roles: %s: %w", r.file, err)
	}
	r.rules.Store(&rules)
	return nil
}

// parse reads a line: an action, and then 'any', 'as' with an ISD-AS, or 'name' with a common name.
func parse(line string) (rule, error) {
	action, who, _ := strings.Cut(strings.Join(strings.Fields(line), " "), " ")
	it := rule{action: Action(action)}
	if it.action != LookUp && it.action != Register && it.action != Remove {
		return it, fmt.Errorf("%q is none of %s, %s and %s", action, LookUp, Register, Remove)
	}
	kind, value, _ := strings.Cut(who, " ")
	var err error
	switch {
	case who == "any":
		it.isAny = true
	case kind == "as":
		it.as, err = cppki.ParseISDAS(value)
	case kind == "name" && value != "":
		it.name = value
	default:
		err = fmt.Errorf("%q is not 'any', 'as ISD-AS' or 'name COMMON NAME'", who)
	}
	return it, err
}

// Allows answers whether a client with this certificate may do something.
func (r *Roles) Allows(certificate *x509.Certificate, action Action) bool {
	for _, one := range *r.rules.Load() {
		if one.action == action && one.isOf(certificate) {
			return true
		}
	}
	return false
}

func (r rule) isOf(certificate *x509.Certificate) bool {
	switch {
	case r.isAny || certificate == nil:
		return r.isAny
	case r.name != "":
		return r.name == certificate.Subject.CommonName
	}
	its, err := cppki.Subject(certificate)
	return err == nil && its == r.as
}

// NameOf answers what a certificate is called in a line of the log: by its ISD-AS, or else by its common
// name.
func NameOf(certificate *x509.Certificate) string {
	if its, err := cppki.Subject(certificate); err == nil {
		return its.String()
	}
	return certificate.Subject.CommonName
}
