package pathd

import (
	"fmt"
	"strconv"
	"strings"
)

// IsdAs is the number of an AS and of its ISD, the ISD in the upper 16 bits and the AS in the lower
// 48. In a lookup a part that is 0 covers every number.
type IsdAs uint64

// ISD answers the number of the ISD.
func (n IsdAs) ISD() uint16 {
	return uint16(n >> 48)
}

// AS answers the number of the AS.
func (n IsdAs) AS() uint64 {
	return uint64(n) & (1<<48 - 1)
}

// String answers the canonical text: an AS below 2^32 in decimal, a larger one in three groups of
// hexadecimal digits, as 2-64512 and 1-ff00:0:110.
func (n IsdAs) String() string {
	as := n.AS()
	if as < 1<<32 {
		return fmt.Sprintf("%d-%d", n.ISD(), as)
	}
	return fmt.Sprintf("%d-%x:%x:%x", n.ISD(), as>>32, as>>16&0xffff, as&0xffff)
}

// ParseIsdAs answers the number of a text such as 1-ff00:0:110 or 2-64512.
func ParseIsdAs(text string) (IsdAs, error) {
	isdText, asText, _ := strings.Cut(text, "-")
	isd, err := strconv.ParseUint(isdText, 10, 16)
	if err != nil {
		return 0, noIsdAs(text)
	}
	if !strings.Contains(asText, ":") {
		as, err := strconv.ParseUint(asText, 10, 32)
		if err != nil {
			return 0, noIsdAs(text)
		}
		return IsdAs(isd<<48 | as), nil
	}
	groups := strings.Split(asText, ":")
	if len(groups) != 3 {
		return 0, noIsdAs(text)
	}
	as := uint64(0)
	for _, group := range groups {
		number, err := strconv.ParseUint(group, 16, 16)
		if err != nil || len(group) > 4 {
			return 0, noIsdAs(text)
		}
		as = as<<16 | number
	}
	return IsdAs(isd<<48 | as), nil
}

func noIsdAs(text string) error {
	return fmt.Errorf("pathd: no ISD-AS: %q", text)
}
