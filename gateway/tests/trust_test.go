package tests

import (
	"crypto/elliptic"
	"crypto/tls"
	"crypto/x509"
	"crypto/x509/pkix"
	"encoding/pem"
	"net"
	"os"
	"path/filepath"
	"strings"
	"syscall"
	"testing"
	"time"

	"google.golang.org/grpc"
	"google.golang.org/grpc/codes"
	"google.golang.org/grpc/credentials"
	"google.golang.org/grpc/metadata"
	"google.golang.org/grpc/status"
	"google.golang.org/protobuf/proto"

	control "pathd/gateway/internal/pb/controlplanepb"
	pki "pathd/gateway/internal/testpki"
	pb "pathd/segmentspb"
)

// registrationOf answers a registration of a segment from the core AS to the leaf.
func registrationOf(t *testing.T, one, two *pki.Signer, change func([]byte)) *pb.SegmentsRegistrationRequest {
	segment := pki.Segment(t, time.Now(), 1,
		pki.Hop{Signer: one, IsdAS: core, KeyOf: core, Base: 1, Serial: 1},
		pki.Hop{Signer: two, IsdAS: leaf, KeyOf: leaf, Base: 1, Serial: 1})
	if change != nil {
		change(segment)
	}
	request := new(pb.SegmentsRegistrationRequest)
	pki.Must(t, proto.Unmarshal(pki.Registration(2, segment), request))
	return request
}

func TestRegistrationsAreVerified(t *testing.T) {
	isd, folder := pki.NewISD(t, elliptic.P256(), 1), t.TempDir()
	one, two := isd.AS(t, elliptic.P256(), "1-ff00:0:110"), isd.AS(t, elliptic.P256(), "1-ff00:0:111")
	isd.WriteTRC(t, folder)
	isd.WriteChain(t, folder, "one", one)
	isd.WriteChain(t, folder, "two", two)
	conn, ctx := dial(t, gateway(t, pathd(t, "127.0.0.1:0").address, "--trust", folder).address)
	good := registrationOf(t, one, two, nil)
	pki.Must(t, register(ctx, conn, good))
	found, err := lookup(ctx, conn)
	if err != nil || !proto.Equal(found, &pb.SegmentsResponse{Segments: good.Segments}) {
		t.Errorf("%v, %v", found, err)
	}
	bad := registrationOf(t, one, two, func(segment []byte) { segment[len(segment)-1] ^= 1 })
	var trailer metadata.MD
	_, err = control.NewSegmentRegistrationServiceClient(conn).SegmentsRegistration(ctx, bad, grpc.Trailer(&trailer))
	text := status.Convert(err).Message()
	if status.Code(err) != codes.InvalidArgument || trailer.Get("pathd-code")[0] != "0x31" ||
		!strings.Contains(text, "segment 1, entry 2 of 1-ff00:0:111") {
		t.Error(err, trailer)
	}
	unsigned := down(t, later)
	if err := register(ctx, conn, unsigned); status.Code(err) != codes.InvalidArgument {
		t.Error(err)
	}
}

func TestTrustMaterial(t *testing.T) {
	isd, folder := pki.NewISD(t, elliptic.P256(), 1), t.TempDir()
	one := isd.AS(t, elliptic.P256(), "1-ff00:0:110")
	isd.WriteTRC(t, folder)
	isd.WriteChain(t, folder, "one", one)
	at := gateway(t, fake(t, healthy), "--trust", folder).address
	conn, ctx := dial(t, at)
	client := control.NewTrustMaterialServiceClient(conn)
	for _, request := range []*control.TRCRequest{{Isd: 1}, {Isd: 1, Base: 1, Serial: 1}} {
		if got, err := client.TRC(ctx, request); err != nil || string(got.Trc) != string(isd.TRC) {
			t.Error(request, err)
		}
	}
	if _, err := client.TRC(ctx, &control.TRCRequest{Isd: 1, Base: 1, Serial: 2}); status.Code(err) != codes.NotFound {
		t.Error(err)
	}
	for path, wanted := range map[string]string{"TRC?encoding=json&message={%22isd%22:1}": "trc", "Chains?encoding=json&message={%22isdAs%22:561850441793808}": "chains"} {
		code, _, text := get(t, clients()["HTTP/1.1"], "http://"+at+"/proto.control_plane.v1.TrustMaterialService/"+path)
		if code != 200 || !strings.HasPrefix(text, `{"`+wanted+`":`) {
			t.Error(path, code, text)
		}
	}
	got, err := client.Chains(ctx, &control.ChainsRequest{IsdAs: core, SubjectKeyId: one.SubjectKeyId})
	if err != nil || len(got.Chains) != 1 || string(got.Chains[0].AsCert) != string(one.Raw) || string(got.Chains[0].CaCert) != string(isd.CA1.Raw) {
		t.Error(got, err)
	}
	if got, err := client.Chains(ctx, &control.ChainsRequest{IsdAs: core, SubjectKeyId: []byte("x")}); err != nil || len(got.Chains) != 0 {
		t.Error(got, err)
	}
}

// TestAControlServiceHasTheChains has a second gateway be the control service.
func TestAControlServiceHasTheChains(t *testing.T) {
	isd, folder, all := pki.NewISD(t, elliptic.P256(), 1), t.TempDir(), t.TempDir()
	one, two := isd.AS(t, elliptic.P256(), "1-ff00:0:110"), isd.AS(t, elliptic.P256(), "1-ff00:0:111")
	isd.WriteTRC(t, folder)
	isd.WriteTRC(t, all)
	isd.WriteChain(t, all, "one", one)
	isd.WriteChain(t, all, "two", two)
	service := gateway(t, fake(t, healthy), "--trust", all)
	conn, ctx := dial(t, gateway(t, fake(t, healthy), "--trust", folder, "--trust-server", service.address).address)
	// A question to the service may take longer than its time on a busy machine, and is then repeated.
	waitUntil(t, "nothing is fetched", func() bool { return register(ctx, conn, registrationOf(t, one, two, nil)) == nil })
	pki.Must(t, register(ctx, conn, registrationOf(t, one, two, nil)))
	stranger := isd.AS(t, elliptic.P256(), "1-ff00:0:110")
	if err := register(ctx, conn, registrationOf(t, stranger, two, nil)); status.Code(err) != codes.InvalidArgument {
		t.Error(err)
	}
}

func TestTrustIsReadAgain(t *testing.T) {
	isd, folder := pki.NewISD(t, elliptic.P256(), 1), t.TempDir()
	one, two := isd.AS(t, elliptic.P256(), "1-ff00:0:110"), isd.AS(t, elliptic.P256(), "1-ff00:0:111")
	isd.WriteTRC(t, folder)
	isd.WriteChain(t, folder, "one", one)
	at := gateway(t, fake(t, healthy), "--trust", folder, "--status", "127.0.0.1:0")
	conn, ctx := dial(t, at.address)
	if err := register(ctx, conn, registrationOf(t, one, two, nil)); status.Code(err) != codes.InvalidArgument {
		t.Error(err)
	}
	faulty := filepath.Join(folder, "faulty.pem")
	pki.Must(t, os.WriteFile(faulty, []byte("x"), 0o600))
	isd.WriteChain(t, folder, "two", two)
	at.signal(syscall.SIGHUP)
	at.waitFor(`pathd_gateway_reloads_total{result="faulty"}`, "1")
	if err := register(ctx, conn, registrationOf(t, one, two, nil)); status.Code(err) != codes.InvalidArgument {
		t.Error("a faulty file: ", err)
	}
	pki.Must(t, os.Remove(faulty))
	at.signal(syscall.SIGHUP)
	for begun := time.Now(); register(ctx, conn, registrationOf(t, one, two, nil)) != nil; time.Sleep(50 * time.Millisecond) {
		if time.Since(begun) > limit {
			t.Fatal("it is not read again")
		}
	}
}

func TestAFolderThatIsFaultyEndsTheStart(t *testing.T) {
	program := os.Getenv("GATEWAY")
	if program == "" {
		t.Skip("GATEWAY is the path of pathd-gateway")
	}
	faulty := t.TempDir()
	pki.Must(t, os.WriteFile(filepath.Join(faulty, "base.trc"), []byte("no TRC"), 0o600))
	for _, c := range []struct {
		words  []string
		reason string
	}{
		{[]string{"--trust", t.TempDir()}, "has no TRC"},
		{[]string{"--trust", faulty}, "base.trc: it is no CMS message: the bytes are cut, or no DER of this form\n"},
		{[]string{"--trust", "/none"}, "/none has no TRC"},
		{[]string{"--cert", "/none", "--key", "/none"}, "/none"},
	} {
		out, status := run(append([]string{program, "--listen", "127.0.0.1:0"}, c.words...)...)
		if status != 1 || !strings.HasPrefix(out, "pathd-gateway: ") || !strings.Contains(out, c.reason) {
			t.Error(c.words, status, out)
		}
	}
	if out, status := run(program, "--none"); status != 2 || out == "" {
		t.Error(status, out)
	}
	if out, status := run(program, "--version"); status != 0 || !strings.HasPrefix(out, "pathd-gateway ") {
		t.Error(status, out)
	}
}

// tlsFiles writes a certificate for the loopback, its key and its authority, and one of a client.
func tlsFiles(t *testing.T, folder string) (authority *pki.Signer) {
	ca := pki.New(t, elliptic.P256(), "authority", "1-ff00:0:110", nil, pki.Authority(1))
	for _, name := range []string{"server", "client"} {
		one := pki.New(t, elliptic.P256(), name, "1-ff00:0:110", ca, pki.OfAS, func(it *x509.Certificate) {
			it.IPAddresses = []net.IP{net.IPv4(127, 0, 0, 1)}
		})
		key, err := x509.MarshalECPrivateKey(one.Key)
		pki.Must(t, err)
		pki.Must(t, os.WriteFile(filepath.Join(folder, name+".crt"), pki.PEM(one.Raw), 0o600))
		pki.Must(t, os.WriteFile(filepath.Join(folder, name+".key"), pem.EncodeToMemory(&pem.Block{Type: "EC PRIVATE KEY", Bytes: key}), 0o600))
	}
	pki.Must(t, os.WriteFile(filepath.Join(folder, "ca.crt"), pki.PEM(ca.Raw), 0o600))
	return ca
}

func TestTLS(t *testing.T) {
	folder := t.TempDir()
	file := func(name string) string { return filepath.Join(folder, name) }
	ca := tlsFiles(t, folder)
	at := gateway(t, fake(t, healthy), "--cert", file("server.crt"), "--key", file("server.key"), "--client-ca", file("ca.crt"))
	pool := x509.NewCertPool()
	pool.AddCert(ca.Certificate)
	pair, err := tls.LoadX509KeyPair(file("client.crt"), file("client.key"))
	pki.Must(t, err)
	config := &tls.Config{RootCAs: pool, Certificates: []tls.Certificate{pair}}
	conn, ctx := dial(t, at.address, grpc.WithTransportCredentials(credentials.NewTLS(config)))
	if _, err := lookup(ctx, conn); err != nil {
		t.Error(err)
	}
	for _, protocols := range [][]string{{"h2"}, {"http/1.1"}} {
		words := config.Clone()
		words.NextProtos = protocols
		client := clientOverTLS(words)
		if code, _, text := post(t, client, "https://"+at.address+lookupPath, []byte{8, 1}, "Content-Type", "application/proto"); code != 200 {
			t.Error(protocols, code, text)
		}
	}
	stranger := &tls.Config{RootCAs: pool}
	raw, err := tls.Dial("tcp", at.address, stranger)
	if err == nil {
		raw.SetDeadline(time.Now().Add(limit))
		if _, err = raw.Read(make([]byte, 1)); err == nil {
			t.Error("a client without a certificate")
		}
		raw.Close()
	}
	old, err := os.ReadFile(file("server.crt"))
	pki.Must(t, err)
	block, _ := pem.Decode(old)
	before, err := x509.ParseCertificate(block.Bytes)
	pki.Must(t, err)
	if before.Subject.String() == (pkix.Name{}).String() {
		t.Error("no subject")
	}
	pool.AddCert(tlsFiles(t, folder).Certificate)
	at.signal(syscall.SIGHUP)
	pair, err = tls.LoadX509KeyPair(file("client.crt"), file("client.key"))
	pki.Must(t, err)
	config = &tls.Config{RootCAs: pool, Certificates: []tls.Certificate{pair}}
	for begun := time.Now(); ; time.Sleep(50 * time.Millisecond) {
		raw, err := tls.Dial("tcp", at.address, config)
		if err == nil {
			isNew := raw.ConnectionState().PeerCertificates[0].SerialNumber.Cmp(before.SerialNumber) != 0
			raw.Close()
			if isNew {
				return
			}
		}
		if time.Since(begun) > limit {
			t.Fatal("the certificate is not read again")
		}
	}
}

// TestSuitesOfTLS12 has clients of TLS 1.2 refused that know suites alone which have CBC or no forward
// secrecy, and those of TLS below 1.2.
func TestSuitesOfTLS12(t *testing.T) {
	folder := t.TempDir()
	ca := tlsFiles(t, folder)
	at := gateway(t, fake(t, healthy), "--cert", filepath.Join(folder, "server.crt"), "--key", filepath.Join(folder, "server.key")).address
	pool := x509.NewCertPool()
	pool.AddCert(ca.Certificate)
	for _, c := range []struct {
		version, suite uint16
		isGood         bool
	}{
		{tls.VersionTLS12, tls.TLS_ECDHE_ECDSA_WITH_AES_128_GCM_SHA256, true},
		{tls.VersionTLS12, tls.TLS_ECDHE_ECDSA_WITH_CHACHA20_POLY1305_SHA256, true},
		{tls.VersionTLS12, tls.TLS_ECDHE_ECDSA_WITH_AES_128_CBC_SHA, false},
		{tls.VersionTLS12, tls.TLS_ECDHE_ECDSA_WITH_AES_256_CBC_SHA, false},
		{tls.VersionTLS12, tls.TLS_ECDHE_ECDSA_WITH_AES_128_CBC_SHA256, false},
		{tls.VersionTLS11, tls.TLS_ECDHE_ECDSA_WITH_AES_128_CBC_SHA, false},
		{tls.VersionTLS13, 0, true},
	} {
		config := &tls.Config{RootCAs: pool, MinVersion: tls.VersionTLS10, MaxVersion: c.version, CipherSuites: []uint16{c.suite}}
		conn, err := tls.Dial("tcp", at, config)
		if (err == nil) != c.isGood {
			t.Errorf("version %#x, suite %#x: %v", c.version, c.suite, err)
		}
		if err == nil {
			conn.Close()
		}
	}
}
