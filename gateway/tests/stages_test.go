package tests

import (
	"crypto/elliptic"
	"os"
	"path/filepath"
	"syscall"
	"testing"
	"time"

	"google.golang.org/grpc/codes"
	"google.golang.org/grpc/status"
	"google.golang.org/protobuf/proto"

	pki "pathd/gateway/internal/testpki"
	pb "pathd/segmentspb"
)

// staged is an ISD whose TRC is updated: another root takes the place of the first one, and the chains of its
// two ASes are renewed below that, one of them with its key as it was.
type staged struct {
	*pki.ISD
	update            []byte
	ca                *pki.Signer
	before, after     [2]*pki.Signer
	folder, everybody string // with what was before, and with all
}

// newStaged answers one whose update began a minute ago.
func newStaged(t *testing.T, grace int64) *staged {
	p256, names := elliptic.P256(), [2]string{"1-ff00:0:110", "1-ff00:0:111"}
	s := &staged{ISD: pki.NewISD(t, p256, 1), folder: t.TempDir(), everybody: t.TempDir()}
	root := pki.New(t, p256, "root", names[0], nil, pki.Authority(1), pki.For(pki.Root))
	payload := pki.NewPayload(1, 1, 2, s.Sensitive, s.Regular, root)
	payload.Votes, payload.Grace = []int{1}, grace
	payload.Validity.NotBefore = time.Now().UTC().Add(-time.Minute).Truncate(time.Second)
	s.update = pki.Sign(t, payload, s.Regular, s.Root1)
	s.ca = pki.New(t, p256, "another ca", names[0], root, pki.Authority(0))
	for number, name := range names {
		s.before[number] = s.AS(t, p256, name)
		key := s.before[0].Key
		if number > 0 {
			key = pki.New(t, p256, "", name, nil).Key
		}
		s.after[number] = pki.Renew(t, key, "as", name, s.ca, pki.OfAS)
	}
	for _, folder := range []string{s.folder, s.everybody} {
		s.WriteTRC(t, folder)
		s.WriteChain(t, folder, "one", s.before[0])
		s.WriteChain(t, folder, "two", s.before[1])
	}
	s.writeUpdate(t, s.everybody)
	return s
}

// writeUpdate writes the update and the renewed chains.
func (s *staged) writeUpdate(t *testing.T, folder string) {
	pki.Must(t, os.WriteFile(filepath.Join(folder, "update.trc"), s.update, 0o600))
	for name, as := range map[string]*pki.Signer{"renewed-one": s.after[0], "renewed-two": s.after[1]} {
		pki.Must(t, os.WriteFile(filepath.Join(folder, name+".pem"), pki.PEM(as.Raw, s.ca.Raw), 0o600))
	}
}

// signed answers a registration by signers that know the TRC with a serial number.
func (s *staged) signed(t *testing.T, by [2]*pki.Signer, serial uint64) *pb.SegmentsRegistrationRequest {
	request := new(pb.SegmentsRegistrationRequest)
	pki.Must(t, proto.Unmarshal(pki.Registration(2, pki.Segment(t, time.Now(), 1,
		pki.Hop{Signer: by[0], IsdAS: core, KeyOf: core, Base: 1, Serial: serial},
		pki.Hop{Signer: by[1], IsdAS: leaf, KeyOf: leaf, Base: 1, Serial: serial})), request))
	return request
}

// TestATRCIsUpdatedInStages has ASes that have the update and ASes that do not register, before a gateway that
// gets it, within the grace period and after it.
func TestATRCIsUpdatedInStages(t *testing.T) {
	for grace, formerIsTaken := range map[int64]bool{3600: true, 30: false} {
		s := newStaged(t, grace)
		at := gateway(t, fake(t, healthy), "--trust", s.folder, "--status", "127.0.0.1:0")
		conn, ctx := dial(t, at.address)
		try := func(stage string, by [2]*pki.Signer, serial uint64, isTaken bool) {
			t.Helper()
			err := register(ctx, conn, s.signed(t, by, serial))
			if isTaken && err != nil || !isTaken && status.Code(err) != codes.InvalidArgument {
				t.Errorf("a grace of %d s, %s, serial number %d: %v", grace, stage, serial, err)
			}
		}
		mixed := [2]*pki.Signer{s.after[0], s.before[1]}
		try("the former chains before", s.before, 1, true)
		try("the former chains before", s.before, 2, false)
		try("the renewed chains before", s.after, 2, false)
		s.writeUpdate(t, s.folder)
		at.signal(syscall.SIGHUP)
		at.waitFor(`pathd_gateway_trcs`, "2")
		try("the renewed chains", s.after, 2, true)
		try("the former chains", s.before, 1, formerIsTaken)
		try("the former chains", s.before, 2, formerIsTaken)
		try("one of each", mixed, 2, formerIsTaken)
	}
}

// TestAnUpdateIsFetched has a gateway with the former TRC ask a control service for the update and the renewed
// chains that signers name.
func TestAnUpdateIsFetched(t *testing.T) {
	s := newStaged(t, 3600)
	service := gateway(t, fake(t, healthy), "--trust", s.everybody)
	at := gateway(t, fake(t, healthy), "--trust", s.folder, "--trust-server", service.address, "--status", "127.0.0.1:0")
	conn, ctx := dial(t, at.address)
	pki.Must(t, register(ctx, conn, s.signed(t, s.before, 1)))
	waitUntil(t, "nothing is fetched", func() bool { return register(ctx, conn, s.signed(t, s.after, 2)) == nil })
	at.waitFor(`pathd_gateway_trcs`, "2")
	pki.Must(t, register(ctx, conn, s.signed(t, s.before, 1)))
}
