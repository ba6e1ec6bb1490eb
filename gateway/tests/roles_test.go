package tests

import (
	"context"
	"crypto/elliptic"
	"crypto/tls"
	"crypto/x509"
	"encoding/hex"
	"encoding/json"
	"encoding/pem"
	"fmt"
	"os"
	"path/filepath"
	"strings"
	"syscall"
	"testing"

	"google.golang.org/grpc"
	"google.golang.org/grpc/codes"
	"google.golang.org/grpc/credentials"
	"google.golang.org/grpc/status"

	client "pathd"
	control "pathd/gateway/internal/pb/controlplanepb"
	pki "pathd/gateway/internal/testpki"
	pb "pathd/segmentspb"
)

// certified answers a gateway whose clients need certificates, and what connects as the AS with a number.
func certified(t *testing.T, pathd string, words ...string) (*process, func(as string) (*grpc.ClientConn, context.Context)) {
	folder := t.TempDir()
	file := func(name string) string { return filepath.Join(folder, name) }
	ca := tlsFiles(t, folder)
	pool := x509.NewCertPool()
	pool.AddCert(ca.Certificate)
	words = append(words, "--cert", file("server.crt"), "--key", file("server.key"), "--client-ca", file("ca.crt"))
	at := gateway(t, pathd, words...)
	return at, func(as string) (*grpc.ClientConn, context.Context) {
		one := pki.New(t, elliptic.P256(), "client of "+as, as, ca, pki.OfAS)
		key, err := x509.MarshalECPrivateKey(one.Key)
		pki.Must(t, err)
		pair, err := tls.X509KeyPair(pki.PEM(one.Raw), pem.EncodeToMemory(&pem.Block{Type: "EC PRIVATE KEY", Bytes: key}))
		pki.Must(t, err)
		config := &tls.Config{RootCAs: pool, Certificates: []tls.Certificate{pair}}
		return dial(t, at.address, grpc.WithTransportCredentials(credentials.NewTLS(config)))
	}
}

// remove removes a down segment, and answers how many there were.
func remove(ctx context.Context, conn *grpc.ClientConn, id []byte) (uint32, error) {
	got, err := control.NewSegmentRemovalServiceClient(conn).Remove(ctx, &control.RemoveRequest{Type: pb.SegmentType_SEGMENT_TYPE_DOWN, Id: id})
	return got.GetRemoved(), err
}

// TestRoles has two clients make each call by each rule, of an action and of any client, of an AS and of a
// name. The rules are read again for each.
func TestRoles(t *testing.T) {
	file := filepath.Join(t.TempDir(), "roles")
	pki.Must(t, os.WriteFile(file, nil, 0o600))
	at, connect := certified(t, fake(t, healthy), "--roles", file, "--status", "127.0.0.1:0")
	var clients [2]*grpc.ClientConn
	var ctx context.Context
	clients[0], ctx = connect("1-ff00:0:110")
	clients[1], _ = connect("1-ff00:0:111")
	calls := map[string]func(*grpc.ClientConn) error{
		"look-up":  func(conn *grpc.ClientConn) error { _, err := lookup(ctx, conn); return err },
		"register": func(conn *grpc.ClientConn) error { return register(ctx, conn, down(t, later)) },
		"remove":   func(conn *grpc.ClientConn) error { _, err := remove(ctx, conn, make([]byte, 32)); return err },
	}
	reloads := 0
	for allowed := range calls {
		for who, covers := range map[string][2]bool{
			"any": {true, true}, "as 1-ff00:0:110": {true, false}, "name client of 1-ff00:0:111": {false, true},
		} {
			reloads++
			pki.Must(t, os.WriteFile(file, []byte(allowed+" "+who+"\n"), 0o600))
			at.signal(syscall.SIGHUP)
			at.waitFor(`pathd_gateway_reloads_total{result="good"}`, fmt.Sprint(reloads))
			for action, call := range calls {
				for number, conn := range clients {
					wanted := codes.PermissionDenied
					if action == allowed && covers[number] {
						wanted = codes.OK
					}
					if err := call(conn); status.Code(err) != wanted {
						t.Errorf("%s %s: client %d, %s: %v", allowed, who, number+1, action, err)
					}
				}
			}
		}
	}
}

// TestRemoval has a segment removed before a pathd, by gRPC and by Connect, and what is no removal refused.
// Without roles there is no such method.
func TestRemoval(t *testing.T) {
	file := filepath.Join(t.TempDir(), "roles")
	pki.Must(t, os.WriteFile(file, []byte("look-up any\nregister any\nremove any\n"), 0o600))
	server := pathd(t, "127.0.0.1:0").address
	_, connect := certified(t, server, "--roles", file)
	conn, ctx := connect("1-ff00:0:110")
	pki.Must(t, register(ctx, conn, down(t, later)))
	its, err := client.DecodeSegment(down(t, later).Segments[2].Segments[0])
	pki.Must(t, err)
	id := its.ID()
	for _, wanted := range []uint32{1, 0} {
		if got, err := remove(ctx, conn, id[:]); got != wanted || err != nil {
			t.Error(got, err)
		}
	}
	if found, err := lookup(ctx, conn); len(found.GetSegments()) != 0 || err != nil {
		t.Error(found, err)
	}
	if _, err := remove(ctx, conn, id[:31]); status.Code(err) != codes.InvalidArgument {
		t.Error(err)
	}
	removals := control.NewSegmentRemovalServiceClient(conn)
	for _, kind := range []pb.SegmentType{0, 4, 258} {
		if _, err := removals.Remove(ctx, &control.RemoveRequest{Type: kind, Id: id[:]}); status.Code(err) != codes.InvalidArgument || !strings.HasPrefix(status.Convert(err).Message(), "0x29 ") {
			t.Error(kind, err)
		}
	}
	open := gateway(t, server).address
	conn, ctx = dial(t, open)
	if _, err := remove(ctx, conn, id[:]); status.Code(err) != codes.Unimplemented {
		t.Error(err)
	}
	if code, _, _ := post(t, clients()["HTTP/1.1"], "http://"+open+"/pathd.gateway.v1.SegmentRemovalService/Remove", nil, "Content-Type", "application/proto"); code != 404 {
		t.Error(code)
	}
}

// TestTheJournal has a line for a registration, for one that pathd refuses, for a removal, and for a call
// without a role, and none for a lookup.
func TestTheJournal(t *testing.T) {
	file := filepath.Join(t.TempDir(), "roles")
	pki.Must(t, os.WriteFile(file, []byte("look-up as 1-ff00:0:110\nregister any\nremove as 1-ff00:0:111\n"), 0o600))
	for format, wanted := range map[string][]string{
		"text": {
			`SegmentsRegistration: OK from 127.0.0.1, client "1-ff00:0:110", down "1-ff00:0:110 1>2 1-ff00:0:111"`,
			`SegmentsRegistration: InvalidArgument from 127.0.0.1, client "1-ff00:0:111", down "1-ff00:0:110 1>2 1-ff00:0:111": "0x32 Expired: a segment has expired"`,
			`Remove: OK from 127.0.0.1, client "1-ff00:0:111", down "8adcea68dc57cbbe68da7142af88b68a9d27a590e1d5157c53c2bb2c762345ff"`,
			`Segments: PermissionDenied from 127.0.0.1, client "1-ff00:0:111": "the client's certificate has no role that allows \"look-up\""`,
		},
		"json": {
			`{"method":"/proto.control_plane.v1.SegmentRegistrationService/SegmentsRegistration","address":"127.0.0.1","client":"1-ff00:0:110","segments":[{"type":"down","path":"1-ff00:0:110 1>2 1-ff00:0:111"}],"status":"OK"}`,
			`{"method":"/proto.control_plane.v1.SegmentRegistrationService/SegmentsRegistration","address":"127.0.0.1","client":"1-ff00:0:111","segments":[{"type":"down","path":"1-ff00:0:110 1>2 1-ff00:0:111"}],"status":"InvalidArgument","code":"0x32","reason":"0x32 Expired: a segment has expired"}`,
			`{"method":"/pathd.gateway.v1.SegmentRemovalService/Remove","address":"127.0.0.1","client":"1-ff00:0:111","segments":[{"type":"down"}],"status":"OK"}`,
			`{"method":"/proto.control_plane.v1.SegmentLookupService/Segments","address":"127.0.0.1","client":"1-ff00:0:111","status":"PermissionDenied","reason":"the client's certificate has no role that allows \"look-up\""}`,
		},
	} {
		at, connect := certified(t, pathd(t, "127.0.0.1:0").address, "--roles", file, "--log", format)
		one, ctx := connect("1-ff00:0:110")
		two, _ := connect("1-ff00:0:111")
		pki.Must(t, register(ctx, one, down(t, later)))
		register(ctx, two, down(t, 1_700_000_000))
		if _, err := lookup(ctx, one); err != nil {
			t.Error(err)
		}
		id, _ := hex.DecodeString("8adcea68dc57cbbe68da7142af88b68a9d27a590e1d5157c53c2bb2c762345ff")
		if _, err := remove(ctx, two, id); err != nil {
			t.Error(err)
		}
		lookup(ctx, two)
		waitUntil(t, format+": four lines do not come", func() bool { return at.log.count("from")+at.log.count("method") >= 4 })
		var got []string
		for _, line := range strings.Split(at.log.String(), "\n") {
			if strings.Contains(line, " from ") || strings.Contains(line, "method") {
				got = append(got, withoutIDs(t, line))
			}
		}
		for number, line := range wanted {
			if number >= len(got) || got[number] != withoutIDs(t, line) || len(got) != len(wanted) {
				t.Errorf("%s:\n%s\n%s", format, strings.Join(got, "\n"), line)
			}
		}
	}
}

// withoutIDs answers a line without its time and the ids of segments, which have to be of 64 digits.
func withoutIDs(t *testing.T, line string) string {
	if !strings.HasPrefix(line, "{") {
		return line
	}
	var it map[string]any
	pki.Must(t, json.Unmarshal([]byte(line), &it))
	delete(it, "time")
	segments, _ := it["segments"].([]any)
	for _, one := range segments {
		segment := one.(map[string]any)
		if id, isThere := segment["id"].(string); isThere && len(id) != 64 {
			t.Error("an id: ", id)
		}
		delete(segment, "id")
	}
	out, err := json.Marshal(it)
	pki.Must(t, err)
	return string(out)
}
