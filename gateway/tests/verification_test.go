package tests

import (
	"context"
	"crypto/elliptic"
	"crypto/x509"
	"fmt"
	"net"
	"sync"
	"sync/atomic"
	"testing"
	"time"

	"google.golang.org/grpc"
	"google.golang.org/grpc/codes"
	"google.golang.org/grpc/status"

	control "pathd/gateway/internal/pb/controlplanepb"
	pki "pathd/gateway/internal/testpki"
	pb "pathd/segmentspb"
)

// counting plays a healthy pathd that counts registrations.
func counting(t *testing.T) (address string, count *atomic.Int64) {
	count = new(atomic.Int64)
	return fake(t, func(content []byte) []byte {
		if content[0] == 1 {
			count.Add(1)
		}
		return healthy(content)
	}), count
}

// trusted is a folder with a TRC and the chains of two ASes, and these.
func trusted(t *testing.T) (folder string, isd *pki.ISD, one, two *pki.Signer) {
	isd, folder = pki.NewISD(t, elliptic.P256(), 1), t.TempDir()
	one, two = isd.AS(t, elliptic.P256(), "1-ff00:0:110"), isd.AS(t, elliptic.P256(), "1-ff00:0:111")
	isd.WriteTRC(t, folder)
	isd.WriteChain(t, folder, "one", one)
	isd.WriteChain(t, folder, "two", two)
	return folder, isd, one, two
}

// TestARegistrationWithoutASegment has those refused, and not sent to pathd, that have nothing to verify.
// Without --trust they are pathd's to judge.
func TestARegistrationWithoutASegment(t *testing.T) {
	folder, _, one, two := trusted(t)
	for _, c := range []struct {
		words    []string
		isSent   bool
		request  *pb.SegmentsRegistrationRequest
		expected codes.Code
	}{
		{[]string{"--trust", folder}, false, new(pb.SegmentsRegistrationRequest), codes.InvalidArgument},
		{[]string{"--trust", folder}, false, &pb.SegmentsRegistrationRequest{Segments: map[int32]*pb.Segments{2: nil, 3: {}}}, codes.InvalidArgument},
		{[]string{"--trust", folder}, true, registrationOf(t, one, two, nil), codes.OK},
		{nil, true, new(pb.SegmentsRegistrationRequest), codes.OK},
	} {
		address, count := counting(t)
		conn, ctx := dial(t, gateway(t, address, c.words...).address)
		if err := register(ctx, conn, c.request); status.Code(err) != c.expected || (count.Load() == 1) != c.isSent {
			t.Errorf("%v: %v, sent %d times", c.request, err, count.Load())
		}
	}
}

// TestAReplayIsAnsweredFromMemory has the same registration reach pathd once a second, and another one
// at once.
func TestAReplayIsAnsweredFromMemory(t *testing.T) {
	folder, _, one, two := trusted(t)
	address, count := counting(t)
	conn, ctx := dial(t, gateway(t, address, "--trust", folder).address)
	request := registrationOf(t, one, two, nil)
	begun := time.Now()
	for call := 0; call < 10; call++ {
		pki.Must(t, register(ctx, conn, request))
	}
	if got := count.Load(); got != 1 && time.Since(begun) < time.Second {
		t.Error(got, "of ten are sent")
	}
	before := count.Load()
	pki.Must(t, register(ctx, conn, registrationOf(t, one, two, nil)))
	pki.Must(t, register(ctx, conn, &pb.SegmentsRegistrationRequest{Segments: map[int32]*pb.Segments{3: request.Segments[2]}}))
	time.Sleep(1100 * time.Millisecond)
	pki.Must(t, register(ctx, conn, request))
	if got := count.Load() - before; got != 3 {
		t.Error(got, "of three others are sent")
	}
}

// TestCommandsOfAPeerAreBounded has one address have a quarter of the 256 commands that may be under way,
// beside one of another address.
func TestCommandsOfAPeerAreBounded(t *testing.T) {
	quit := make(chan struct{})
	address := fake(t, func(content []byte) []byte {
		if content[0] == 1 {
			<-quit
		}
		return healthy(content)
	})
	at := gateway(t, address, "--status", "127.0.0.1:0", "--deadline", "60")
	done := make(chan error)
	begin := func(from string, calls int) {
		conn, ctx := dial(t, at.address, grpc.WithInsecure(), dialing(from))
		for call := 0; call < calls; call++ {
			go func() { done <- register(ctx, conn, down(t, later)) }()
		}
	}
	begin(other, 100)
	at.waitFor(`pathd_gateway_calls{request="whole"}`, "100")
	at.waitFor(`pathd_gateway_requests{pool="registrations"}`, "64")
	begin("127.0.0.1", 3)
	at.waitFor(`pathd_gateway_requests{pool="registrations"}`, "67")
	close(quit)
	for call := 0; call < 103; call++ {
		pki.Must(t, <-done)
	}
}

// dialing has a client connect from an address.
func dialing(address string) grpc.DialOption {
	return grpc.WithContextDialer(func(ctx context.Context, to string) (net.Conn, error) {
		dialer := net.Dialer{LocalAddr: &net.TCPAddr{IP: net.ParseIP(address)}}
		return dialer.DialContext(ctx, "tcp", to)
	})
}

// TestAControlServiceThatDoesNotAnswer has a registration refused as one that may be sent again.
func TestAControlServiceThatDoesNotAnswer(t *testing.T) {
	isd, folder := pki.NewISD(t, elliptic.P256(), 1), t.TempDir()
	isd.WriteTRC(t, folder)
	one, two := isd.AS(t, elliptic.P256(), "1-ff00:0:110"), isd.AS(t, elliptic.P256(), "1-ff00:0:111")
	silent, err := net.Listen("tcp", "127.0.0.1:0")
	pki.Must(t, err)
	t.Cleanup(func() { silent.Close() })
	for name, service := range map[string]string{"silent": silent.Addr().String(), "away": "127.0.0.1:1"} {
		at := gateway(t, fake(t, healthy), "--trust", folder, "--trust-server", service, "--status", "127.0.0.1:0")
		conn, ctx := dial(t, at.address)
		if err := register(ctx, conn, registrationOf(t, one, two, nil)); status.Code(err) != codes.Unavailable {
			t.Errorf("%s: %v", name, err)
		}
		rows := at.rows()
		if rows[`pathd_gateway_entries_total{result="refused"}`] != "0" || rows[`pathd_gateway_fetches_total{result="unanswered"}`] != "1" {
			t.Error(name, rows)
		}
	}
}

// material is a control service that knows the chains of some ASes, and takes long for others.
type material struct {
	control.UnimplementedTrustMaterialServiceServer
	ca     *pki.Signer
	known  map[string]*pki.Signer // by key
	pause  time.Duration
	others atomic.Int64 // calls for keys that it does not know
}

// Chains answers the chain of a key.
func (m *material) Chains(ctx context.Context, request *control.ChainsRequest) (*control.ChainsResponse, error) {
	if its := m.known[string(request.SubjectKeyId)]; its != nil {
		return &control.ChainsResponse{Chains: []*control.Chain{{AsCert: its.Raw, CaCert: m.ca.Raw}}}, nil
	}
	m.others.Add(1)
	select {
	case <-time.After(m.pause):
	case <-ctx.Done():
	}
	return new(control.ChainsResponse), nil
}

// serve starts the service, and answers its address.
func (m *material) serve(t *testing.T) string {
	listener, err := net.Listen("tcp", "127.0.0.1:0")
	pki.Must(t, err)
	server := grpc.NewServer()
	control.RegisterTrustMaterialServiceServer(server, m)
	go server.Serve(listener)
	t.Cleanup(server.Stop)
	return listener.Addr().String()
}

// invented answers a registration whose first entry names a key that nobody has.
func invented(t *testing.T, of, two *pki.Signer, name string) *pb.SegmentsRegistrationRequest {
	certificate := new(x509.Certificate)
	*certificate = *of.Certificate
	certificate.SubjectKeyId = []byte(name)
	return registrationOf(t, &pki.Signer{Certificate: certificate, Key: of.Key}, two, nil)
}

// TestInventedKeysKeepNobodyWaiting has twenty peers name keys that there are not, of which the control
// service answers each after two seconds, beside one whose chains it has.
func TestInventedKeysKeepNobodyWaiting(t *testing.T) {
	isd, folder := pki.NewISD(t, elliptic.P256(), 1), t.TempDir()
	isd.WriteTRC(t, folder)
	one, two := isd.AS(t, elliptic.P256(), "1-ff00:0:110"), isd.AS(t, elliptic.P256(), "1-ff00:0:111")
	service := &material{ca: isd.CA1, pause: 2 * time.Second, known: map[string]*pki.Signer{
		string(one.SubjectKeyId): one, string(two.SubjectKeyId): two}}
	at := gateway(t, fake(t, healthy), "--trust", folder, "--trust-server", service.serve(t), "--deadline", "60").address
	var wait sync.WaitGroup
	for peer := 2; peer < 22; peer++ {
		conn, ctx := dial(t, at, grpc.WithInsecure(), dialing(fmt.Sprint("127.0.0.", peer)))
		for call := 0; call < 5; call++ {
			request := invented(t, one, two, fmt.Sprint("key ", peer, " ", call))
			wait.Add(1)
			go func() {
				defer wait.Done()
				if err := register(ctx, conn, request); status.Code(err) != codes.InvalidArgument {
					t.Error(err)
				}
			}()
		}
	}
	waitUntil(t, "the keys are not asked for", func() bool { return service.others.Load() >= 20 })
	conn, ctx := dial(t, at)
	begun := time.Now()
	if err := register(ctx, conn, registrationOf(t, one, two, nil)); err != nil || time.Since(begun) > 1500*time.Millisecond {
		t.Error(err, time.Since(begun))
	}
	wait.Wait()
}

// TestAPeerHasABudgetOfKeys has a peer name more keys that there are not than it may, and a chain of another
// peer be fetched all the same.
func TestAPeerHasABudgetOfKeys(t *testing.T) {
	isd, folder := pki.NewISD(t, elliptic.P256(), 1), t.TempDir()
	isd.WriteTRC(t, folder)
	one, two := isd.AS(t, elliptic.P256(), "1-ff00:0:110"), isd.AS(t, elliptic.P256(), "1-ff00:0:111")
	service := &material{ca: isd.CA1, known: map[string]*pki.Signer{string(one.SubjectKeyId): one, string(two.SubjectKeyId): two}}
	at := gateway(t, fake(t, healthy), "--trust", folder, "--trust-server", service.serve(t)).address
	conn, ctx := dial(t, at, grpc.WithInsecure(), dialing(other))
	count, begun := map[codes.Code]int64{}, time.Now()
	for key := 0; key < 60; key++ {
		request := invented(t, one, two, fmt.Sprint("key ", key))
		for call := 0; call < 2; call++ { // the second one is not asked for again
			count[status.Code(register(ctx, conn, request))]++
		}
	}
	// The first call for a key may come before there is one more, and the second one then.
	asked, most, answered := service.others.Load(), int64(16+time.Since(begun)/time.Second+1), count[codes.InvalidArgument]
	if asked < 16 || asked > most || answered < asked || answered > 2*asked || count[codes.ResourceExhausted] != 120-answered {
		t.Errorf("%d keys are asked for, of at most %d: %v", asked, most, count)
	}
	honest, ctx := dial(t, at)
	pki.Must(t, register(ctx, honest, registrationOf(t, one, two, nil)))
}

// TestASegmentThatOutlivesAChain has it refused, with and without a control service that has no other one,
// and taken where that has one.
func TestASegmentThatOutlivesAChain(t *testing.T) {
	isd, folder := pki.NewISD(t, elliptic.P256(), 1), t.TempDir()
	isd.WriteTRC(t, folder)
	long := isd.AS(t, elliptic.P256(), "1-ff00:0:110")
	two := isd.AS(t, elliptic.P256(), "1-ff00:0:111")
	short := pki.Renew(t, long.Key, "as", "1-ff00:0:110", isd.CA1, pki.OfAS, pki.Until(time.Now().Add(time.Hour)))
	isd.WriteChain(t, folder, "short", short)
	isd.WriteChain(t, folder, "two", two)
	service := &material{ca: isd.CA1, known: map[string]*pki.Signer{string(long.SubjectKeyId): short}}
	renewed := &material{ca: isd.CA1, known: map[string]*pki.Signer{string(long.SubjectKeyId): long}}
	for number, c := range []struct {
		words  []string
		wanted codes.Code
	}{
		{nil, codes.InvalidArgument},
		{[]string{"--trust-server", service.serve(t)}, codes.InvalidArgument},
		{[]string{"--trust-server", renewed.serve(t)}, codes.OK},
	} {
		at := gateway(t, fake(t, healthy), append([]string{"--trust", folder}, c.words...)...)
		conn, ctx := dial(t, at.address)
		if err := register(ctx, conn, registrationOf(t, long, two, nil)); status.Code(err) != c.wanted {
			t.Errorf("case %d: %v", number, err)
		}
	}
}
