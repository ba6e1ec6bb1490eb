package pathdb

import (
	"encoding/hex"
	"strings"
	"testing"
)

func TestSpans(t *testing.T) {
	zeros, ones := strings.Repeat("0", 64), strings.Repeat("f", 64)
	for _, c := range []struct{ digits, first, last, before string }{
		{"0", zeros, "0" + ones[1:], ""},
		{"8", "8" + zeros[1:], "8" + ones[1:], "7" + ones[1:]},
		{"8A0", "8a0" + zeros[3:], "8a0" + ones[3:], "89f" + ones[3:]},
		{"00000001", "00000001" + zeros[8:], "00000001" + ones[8:], "00000000" + ones[8:]},
		{ones, ones, ones, ones[:63] + "e"},
		{zeros, zeros, zeros, ""},
	} {
		got, err := spanOfText(c.digits)
		if err != nil || hex.EncodeToString(got.first[:]) != c.first || hex.EncodeToString(got.last[:]) != c.last {
			t.Errorf("%s: %x, %v", c.digits, got, err)
		}
		before := ""
		if it := got.before(); it != nil {
			before = hex.EncodeToString(it[:])
		}
		if before != c.before {
			t.Errorf("%s: %s", c.digits, before)
		}
		if !got.has(got.first) || !got.has(got.last) || !got.endsBy(got.last) || got.first != got.last && got.endsBy(got.first) {
			t.Errorf("%s", c.digits)
		}
		if before != "" && (got.has(*got.before()) || got.endsBy(*got.before())) {
			t.Errorf("%s has %s", c.digits, before)
		}
	}
}
