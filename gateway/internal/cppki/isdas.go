package cppki

import (
	"crypto/x509"
	"errors"
	"fmt"
	"strconv"
	"strings"
)

// ISDAS is an ISD in the upper 16 bits and an AS in the lower 48.
type ISDAS uint64

// ISD answers the ISD.
func (it ISDAS) ISD() int64 { return int64(it >> 48) }

// String answers the text, such as 1-ff00:0:110 or 1-64512.
func (it ISDAS) String() string {
	as := uint64(it) & (1<<48 - 1)
	if as < 1<<32 {
		return fmt.Sprintf("%d-%d", it>>48, as)
	}
	return fmt.Sprintf("%d-%x:%x:%x", it>>48, as>>32, as>>16&0xffff, as&0xffff)
}

// ParseISDAS reads such a text.
func ParseISDAS(text string) (ISDAS, error) {
	isd, as, isPair := strings.Cut(text, "-")
	upper, err := strconv.ParseUint(isd, 10, 16)
	if err != nil || !isPair || upper == 0 {
		return 0, fmt.Errorf("%q is no ISD-AS", text)
	}
	lower, err := parseAS(as)
	return ISDAS(upper<<48 | lower), err
}

func parseAS(text string) (uint64, error) {
	groups := strings.Split(text, ":")
	if len(groups) == 1 {
		as, err := strconv.ParseUint(text, 10, 32)
		if err != nil || as == 0 {
			return 0, fmt.Errorf("%q is no AS", text)
		}
		return as, nil
	}
	as := uint64(0)
	for _, group := range groups {
		part, err := strconv.ParseUint(group, 16, 16)
		if err != nil || len(groups) != 3 {
			return 0, fmt.Errorf("%q is no AS", text)
		}
		as = as<<16 | part
	}
	if as == 0 {
		return 0, fmt.Errorf("%q is no AS", text)
	}
	return as, nil
}

var (
	errNoISDAS      = errors.New("the subject has no ISD-AS")
	errSeveralISDAS = errors.New("the subject has several ISD-ASes")
)

// Subject answers the ISD-AS of a certificate's subject, which has to be there once.
func Subject(of *x509.Certificate) (ISDAS, error) {
	found, count := "", 0
	for _, name := range of.Subject.Names {
		if name.Type.Equal(oidISDAS) {
			text, _ := name.Value.(string)
			found = text
			count++
		}
	}
	switch count {
	case 0:
		return 0, errNoISDAS
	case 1:
		return ParseISDAS(found)
	}
	return 0, errSeveralISDAS
}
