package tests

import (
	"context"
	"fmt"
	"net/http"
	"sync"
	"sync/atomic"
	"testing"
	"time"

	"google.golang.org/grpc"
	"google.golang.org/grpc/codes"
	"google.golang.org/grpc/status"
	"google.golang.org/protobuf/proto"

	client "pathd"
	pki "pathd/gateway/internal/testpki"
	"pathd/internal/testpathd"
	pb "pathd/segmentspb"
)

// twoServers starts two servers, and a gateway before both.
func twoServers(t *testing.T) (servers []*testpathd.Server, before *process) {
	for len(servers) < 2 {
		servers = append(servers, testpathd.Start(t, "2048", "4096", "--cores", "1-ff00:0:110"))
	}
	return servers, gateway(t, servers[0].Address+","+servers[1].Address, "--status", "127.0.0.1:0", "--deadline", "40")
}

func rowOf(name string, of *testpathd.Server) string {
	return fmt.Sprintf("%s{server=%q}", name, of.Address)
}

// load is callers that register, each segments of its own, and others that look one up which is there all
// the time.
type load struct {
	all               sync.WaitGroup
	end               atomic.Bool
	registered, found atomic.Int64
}

func (l *load) begin(t *testing.T, ctx context.Context, conn *grpc.ClientConn, wanted *pb.SegmentsResponse) {
	for caller := 1; caller <= 4; caller++ {
		l.all.Add(2)
		go func(caller int) {
			defer l.all.Done()
			for number := 1; !l.end.Load(); number++ {
				path := fmt.Sprintf("1-ff00:0:110 %d>2 1-%d", number, caller)
				if err := registerPath(ctx, conn, path); err != nil {
					t.Errorf("%s: %v", path, err)
					return
				}
				l.registered.Add(1)
			}
		}(caller)
		go func() {
			defer l.all.Done()
			for !l.end.Load() {
				if found, err := lookup(ctx, conn); err != nil || !proto.Equal(found, wanted) {
					t.Errorf("%v, %v", found, err)
					return
				}
				l.found.Add(1)
			}
		}()
	}
}

func registerPath(ctx context.Context, conn *grpc.ClientConn, text string) error {
	path, err := client.ParsePath(text)
	if err != nil {
		return err
	}
	segment, err := client.EncodeSegment(path, time.Unix(later, 0), nil)
	if err != nil {
		return err
	}
	return register(ctx, conn, client.Registration(client.Down, segment))
}

// moves waits until the load has gone on.
func (l *load) moves(t *testing.T) {
	t.Helper()
	registered, found := l.registered.Load(), l.found.Load()
	waitUntil(t, "the load does not go on", func() bool {
		return t.Failed() || l.registered.Load() >= registered+20 && l.found.Load() >= found+20
	})
}

// TestServersThatAreKilledInTurn has each of two servers killed under load and started again. No call fails,
// and at the end both have all segments.
func TestServersThatAreKilledInTurn(t *testing.T) {
	servers, at := twoServers(t)
	conn, ctx := dial(t, at.address)
	request := down(t, later)
	pki.Must(t, register(ctx, conn, request))
	l := new(load)
	l.begin(t, ctx, conn, &pb.SegmentsResponse{Segments: request.Segments})
	for turn := 0; turn < 4; turn++ {
		it := servers[turn%2]
		l.moves(t)
		it.Kill()
		l.moves(t)
		it.Restart()
		at.waitFor(rowOf("pathd_gateway_server_up", it), "1")
	}
	l.moves(t)
	l.end.Store(true)
	l.all.Wait()
	for _, it := range servers {
		at.waitFor(rowOf("pathd_gateway_registrations_waiting", it), "0")
		alone, count := client.NewClient(it.Address, client.ClientOptions{}), int64(0)
		alone.List(ctx, client.Down, 0, 0)(func(_ *pb.PathSegment, err error) bool {
			pki.Must(t, err)
			count++
			return true
		})
		alone.Close()
		if wanted := 1 + l.registered.Load(); count != wanted {
			t.Errorf("%s has %d segments, and not %d", it.Address, count, wanted)
		}
	}
}

func TestWhatIsSaidOfAServerThatIsAway(t *testing.T) {
	servers, at := twoServers(t)
	up, away := servers[0], servers[1]
	away.Kill()
	at.waitFor(rowOf("pathd_gateway_server_up", away), "0")
	conn, ctx := dial(t, at.address)
	request := down(t, later)
	pki.Must(t, register(ctx, conn, request))
	// One that the other server refuses ends at once.
	if err := register(ctx, conn, down(t, 1_700_000_000)); status.Code(err) != codes.InvalidArgument {
		t.Error(err)
	}
	rows := at.rows()
	for name, wanted := range map[string]string{
		rowOf("pathd_gateway_server_up", up): "1", "pathd_gateway_pathd_up": "1",
		rowOf("pathd_gateway_registrations_waiting", up): "0", rowOf("pathd_gateway_registrations_waiting", away): "2",
		fmt.Sprintf(`pathd_gateway_registrations_not_taken_total{server=%q,why="refused"}`, up.Address): "1",
		fmt.Sprintf(`pathd_gateway_registrations_not_taken_total{server=%q,why="dropped"}`, up.Address): "0",
		`pathd_gateway_sessions{pool="registrations"}`:                                                  "1",
	} {
		if rows[name] != wanted {
			t.Errorf("%s is %q", name, rows[name])
		}
	}
	if response, err := http.Get("http://" + at.numbers + "/healthz"); err != nil || response.StatusCode != http.StatusOK {
		t.Error(response, err)
	}
	away.Restart()
	at.waitFor(rowOf("pathd_gateway_registrations_waiting", away), "0")
	at.waitFor(rowOf("pathd_gateway_server_up", away), "1")
	up.Kill()
	if found, err := lookup(ctx, conn); err != nil || !proto.Equal(found, &pb.SegmentsResponse{Segments: request.Segments}) {
		t.Errorf("%v, %v", found, err)
	}
	for _, line := range []string{" does not answer: ", " answers again"} {
		if at.log.count("pathd at "+away.Address+line) == 0 {
			t.Errorf("no line%s: %s", line, at.log)
		}
	}
	away.Kill()
	at.waitFor(rowOf("pathd_gateway_server_up", up), "0")
	at.waitFor(rowOf("pathd_gateway_server_up", away), "0")
	if got := at.rows()["pathd_gateway_pathd_up"]; got != "0" {
		t.Error(got)
	}
	if _, err := lookup(ctx, conn); status.Code(err) != codes.Unavailable {
		t.Error(err)
	}
}

// TestAServerThatHangs has lookups and registrations go on at the other one, also those whose clients have
// less patience than the gateway.
func TestAServerThatHangs(t *testing.T) {
	quit := make(chan struct{})
	t.Cleanup(func() { close(quit) })
	hung := fake(t, func([]byte) []byte { <-quit; return nil })
	at := gateway(t, hung+","+pathd(t, "127.0.0.1:0").address, "--deadline", "24")
	conn, ctx := dial(t, at.address)
	request := down(t, later)
	for turn := 0; turn < 3; turn++ {
		begun := time.Now()
		short, cancel := context.WithTimeout(ctx, 10*time.Second)
		if _, err := lookup(short, conn); err != nil {
			t.Error(err)
		}
		if took := time.Since(begun); turn > 0 && took > 4*time.Second {
			t.Errorf("the server that hangs is asked again for %v", took)
		}
		cancel()
	}
	begun := time.Now()
	pki.Must(t, register(ctx, conn, request))
	if took := time.Since(begun); took < 10*time.Second {
		t.Errorf("a server that may yet answer is waited for %v", took)
	}
	for turn := 0; turn < 3; turn++ {
		pki.Must(t, register(ctx, conn, request))
		if found, err := lookup(ctx, conn); err != nil || !proto.Equal(found, &pb.SegmentsResponse{Segments: request.Segments}) {
			t.Errorf("%v, %v", found, err)
		}
	}
}

// TestOneOfTwoServersLists has the one that lists asked for pages.
func TestOneOfTwoServersLists(t *testing.T) {
	segments := many(t, 100)
	without, _ := lister(t, segments, func() []byte { return nil })
	with, _ := lister(t, segments, nil)
	conn, ctx := dial(t, gateway(t, without+","+with).address)
	for turn := 0; turn < 3; turn++ {
		if found, more := marked(t, ctx, conn); more || !proto.Equal(found, answerOf(segments)) {
			t.Errorf("%d segments, more: %v", len(found.GetSegments()[2].GetSegments()), more)
		}
	}
}
