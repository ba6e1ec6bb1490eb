package roles

import (
	"crypto/elliptic"
	"crypto/x509"
	"os"
	"path/filepath"
	"testing"

	pki "pathd/gateway/internal/testpki"
)

func TestWhoMayDoWhat(t *testing.T) {
	file := filepath.Join(t.TempDir(), "roles")
	certificate := func(name, isdAS string) *x509.Certificate {
		return pki.New(t, elliptic.P256(), name, isdAS, nil).Certificate
	}
	one, two := certificate("a control  service", "1-ff00:0:110"), certificate("monitor", "1-ff00:0:111")
	for _, c := range []struct {
		rules                                string
		oneLooks, oneRegs, twoLooks, twoRegs bool
	}{
		{"", false, false, false, false},
		{"# all\n\nlook-up any\n", true, false, true, false},
		{"look-up any\n  register   as 1-ff00:0:110 ", true, true, true, false},
		{"look-up as 1-ff00:0:111\nregister name monitor", false, false, true, true},
		{"register any\nlook-up name Monitor", false, true, false, true},
		{"look-up as 2-ff00:0:110\nlook-up name 1-ff00:0:110", false, false, false, false},
		{"remove any", false, false, false, false},
	} {
		pki.Must(t, os.WriteFile(file, []byte(c.rules), 0o600))
		r, err := Open(file)
		pki.Must(t, err)
		got := [4]bool{r.Allows(one, LookUp), r.Allows(one, Register), r.Allows(two, LookUp), r.Allows(two, Register)}
		if got != [4]bool{c.oneLooks, c.oneRegs, c.twoLooks, c.twoRegs} {
			t.Errorf("%q: %v", c.rules, got)
		}
	}
}

func TestFaultyRules(t *testing.T) {
	file := filepath.Join(t.TempDir(), "roles")
	pki.Must(t, os.WriteFile(file, []byte("look-up any"), 0o600))
	r, err := Open(file)
	pki.Must(t, err)
	for _, line := range []string{"purge any", "look-up", "look-up all", "register as", "register as 1-x", "register name", "register any one", "LOOK-UP any"} {
		pki.Must(t, os.WriteFile(file, []byte("register any\n"+line), 0o600))
		if err := r.Read(); err == nil {
			t.Errorf("%q is not refused", line)
		}
	}
	if !r.Allows(nil, LookUp) || r.Allows(nil, Register) {
		t.Error("the rules that were read before do not count")
	}
	if _, err := Open(file + ".none"); err == nil {
		t.Error("no file")
	}
}
