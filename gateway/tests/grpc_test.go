package tests

import (
	"context"
	"fmt"
	"net"
	"sync"
	"syscall"
	"testing"
	"time"

	"google.golang.org/grpc"
	"google.golang.org/grpc/codes"
	health "google.golang.org/grpc/health/grpc_health_v1"
	"google.golang.org/grpc/metadata"
	reflection "google.golang.org/grpc/reflection/grpc_reflection_v1alpha"
	"google.golang.org/grpc/status"
	"google.golang.org/protobuf/proto"
	"google.golang.org/protobuf/types/descriptorpb"

	control "pathd/gateway/internal/pb/controlplanepb"
	pb "pathd/segmentspb"
)

const (
	core, leaf          uint64 = 0x0001_ff00_0000_0110, 0x0001_ff00_0000_0111
	lookupService              = "proto.control_plane.v1.SegmentLookupService"
	registrationService        = "proto.control_plane.v1.SegmentRegistrationService"
	later                      = 4_000_000_000 // in 2096
)

// down answers a segment of two entries from the core AS to the leaf, made at a time in seconds since
// 1970.
func down(t *testing.T, timestamp int64) *pb.SegmentsRegistrationRequest {
	must := func(m proto.Message) []byte {
		out, err := proto.Marshal(m)
		if err != nil {
			t.Fatal(err)
		}
		return out
	}
	segment := &pb.PathSegment{SegmentInfo: must(&pb.SegmentInformation{Timestamp: timestamp, SegmentId: 7})}
	for i, as := range []uint64{core, leaf} {
		hop := &pb.HopField{ExpTime: 63, Mac: []byte("abcdef")}
		body := &pb.ASEntrySignedBody{IsdAs: as, HopEntry: &pb.HopEntry{HopField: hop}, Mtu: 1472}
		if i == 0 {
			hop.Egress, body.NextIsdAs = 1, leaf
		} else {
			hop.Ingress = 2
		}
		both := must(&pb.HeaderAndBody{Body: must(body)})
		segment.AsEntries = append(segment.AsEntries, &pb.ASEntry{Signed: &pb.SignedMessage{HeaderAndBody: both}})
	}
	list := &pb.Segments{Segments: []*pb.PathSegment{segment}}
	return &pb.SegmentsRegistrationRequest{Segments: map[int32]*pb.Segments{int32(pb.SegmentType_SEGMENT_TYPE_DOWN): list}}
}

func lookup(ctx context.Context, conn *grpc.ClientConn, options ...grpc.CallOption) (*pb.SegmentsResponse, error) {
	return control.NewSegmentLookupServiceClient(conn).Segments(ctx, &pb.SegmentsRequest{SrcIsdAs: core, DstIsdAs: leaf}, options...)
}

func register(ctx context.Context, conn *grpc.ClientConn, request *pb.SegmentsRegistrationRequest) error {
	_, err := control.NewSegmentRegistrationServiceClient(conn).SegmentsRegistration(ctx, request)
	return err
}

func TestARegistrationIsFound(t *testing.T) {
	conn, ctx := dial(t, gateway(t, pathd(t, "127.0.0.1:0").address).address)
	request := down(t, later)
	if err := register(ctx, conn, request); err != nil {
		t.Fatal(err)
	}
	found, err := lookup(ctx, conn)
	if err != nil || !proto.Equal(found, &pb.SegmentsResponse{Segments: request.Segments}) {
		t.Errorf("%v, %v", found, err)
	}
}

func TestRefusals(t *testing.T) {
	conn, ctx := dial(t, gateway(t, pathd(t, "127.0.0.1:0").address).address)
	var trailer metadata.MD
	_, err := control.NewSegmentLookupServiceClient(conn).Segments(ctx, &pb.SegmentsRequest{}, grpc.Trailer(&trailer))
	if status.Code(err) != codes.InvalidArgument || trailer.Get("pathd-code")[0] != "0x41" {
		t.Error(err, trailer)
	}
	if text := status.Convert(err).Message(); text != "0x41 NullDestination: both sides of the lookup are 0-0" {
		t.Error(text)
	}
	if err := register(ctx, conn, down(t, 1_700_000_000)); status.Code(err) != codes.InvalidArgument {
		t.Error(err)
	}
}

func TestEachCodeHasItsStatus(t *testing.T) {
	for code, wanted := range map[byte]codes.Code{
		0x01: codes.ResourceExhausted, 0x2a: codes.InvalidArgument, 0x31: codes.InvalidArgument, 0x33: codes.InvalidArgument, 0x51: codes.Unavailable,
		0x52: codes.ResourceExhausted, 0x54: codes.FailedPrecondition, 0x61: codes.Unavailable, 0x62: codes.Unknown, 0x63: codes.Unknown,
		0x64: codes.FailedPrecondition, 0x99: codes.Internal,
	} {
		address := fake(t, func(content []byte) []byte {
			if content[0] == 1 {
				return []byte{0xff, code}
			}
			return healthy(content)
		})
		conn, ctx := dial(t, gateway(t, address).address)
		if err := register(ctx, conn, down(t, later)); status.Code(err) != wanted {
			t.Errorf("%#x: %v", code, err)
		}
	}
}

func TestHealth(t *testing.T) {
	server := pathd(t, heldAddress(t))
	conn, ctx := dial(t, gateway(t, server.address).address)
	client := health.NewHealthClient(conn)
	for _, service := range []string{"", lookupService, registrationService} {
		waitUntil(t, service+" is not served", func() bool {
			got, err := client.Check(ctx, &health.HealthCheckRequest{Service: service})
			return err == nil && got.Status == health.HealthCheckResponse_SERVING
		})
	}
	if _, err := client.Check(ctx, &health.HealthCheckRequest{Service: "another"}); status.Code(err) != codes.NotFound {
		t.Error(err)
	}
	stream, err := client.Watch(ctx, &health.HealthCheckRequest{})
	if err != nil {
		t.Fatal(err)
	}
	// On a busy machine the answer of pathd may be late, so that another status comes between.
	next := func(wanted health.HealthCheckResponse_ServingStatus) {
		for {
			got, err := stream.Recv()
			if err != nil {
				t.Fatal(err)
			}
			if got.Status == wanted {
				return
			}
		}
	}
	next(health.HealthCheckResponse_SERVING)
	server.end(syscall.SIGKILL)
	next(health.HealthCheckResponse_NOT_SERVING)
	if _, err := lookup(ctx, conn); status.Code(err) != codes.Unavailable {
		t.Error(err)
	}
	pathd(t, server.address)
	next(health.HealthCheckResponse_SERVING)
	if _, err := lookup(ctx, conn); err != nil {
		t.Error(err)
	}
}

// TestTheLogSaysWhenPathdGoesAway has a line when it goes away, and one when it comes back, however many
// calls fail meanwhile.
func TestTheLogSaysWhenPathdGoesAway(t *testing.T) {
	server := pathd(t, heldAddress(t))
	at := gateway(t, server.address)
	conn, ctx := dial(t, at.address)
	away, back := "pathd at "+server.address+" does not answer: ", "pathd at "+server.address+" answers again"
	for round := 1; round <= 2; round++ {
		server.end(syscall.SIGKILL)
		waitUntil(t, "no line when it goes away", func() bool { return at.log.count(away) == round })
		for call := 0; call < 20; call++ {
			if _, err := lookup(ctx, conn); status.Code(err) != codes.Unavailable {
				t.Error(err)
			}
		}
		time.Sleep(2 * time.Second) // and two checks later
		server = pathd(t, server.address)
		waitUntil(t, "no line when it comes back", func() bool { return at.log.count(back) == round })
		if _, err := lookup(ctx, conn); err != nil || at.log.count(away) != round {
			t.Error(err, at.log)
		}
	}
}

func TestReflection(t *testing.T) {
	conn, ctx := dial(t, gateway(t, fake(t, healthy)).address)
	stream, err := reflection.NewServerReflectionClient(conn).ServerReflectionInfo(ctx)
	if err != nil {
		t.Fatal(err)
	}
	for _, symbol := range []string{lookupService, "pathd.SegmentsRequest", "grpc.health.v1.Health"} {
		asked := &reflection.ServerReflectionRequest_FileContainingSymbol{FileContainingSymbol: symbol}
		if err := stream.Send(&reflection.ServerReflectionRequest{MessageRequest: asked}); err != nil {
			t.Fatal(err)
		}
		response, err := stream.Recv()
		if err != nil {
			t.Fatal(err)
		}
		files := response.GetFileDescriptorResponse().GetFileDescriptorProto()
		for _, content := range files {
			if err := proto.Unmarshal(content, new(descriptorpb.FileDescriptorProto)); err != nil {
				t.Error(symbol, err)
			}
		}
		if len(files) == 0 {
			t.Error(symbol, response)
		}
	}
}

func TestDeadlines(t *testing.T) {
	quit := make(chan struct{})
	t.Cleanup(func() { close(quit) })
	address := fake(t, func(content []byte) []byte {
		if len(content) > 1 {
			<-quit
		}
		return healthy(content)
	})
	conn, ctx := dial(t, gateway(t, address, "--deadline", "1").address)
	for _, length := range []time.Duration{200 * time.Millisecond, limit} {
		short, cancel := context.WithTimeout(ctx, length)
		begun := time.Now()
		_, err := lookup(short, conn)
		cancel()
		if status.Code(err) != codes.DeadlineExceeded || time.Since(begun) > limit/2 {
			t.Error(err, time.Since(begun))
		}
	}
}

func TestARequestThatIsTooLarge(t *testing.T) {
	conn, ctx := dial(t, gateway(t, fake(t, healthy)).address)
	request := down(t, later)
	request.Segments[2].Segments[0].SegmentInfo = make([]byte, 131_072)
	if err := register(ctx, conn, request); status.Code(err) != codes.ResourceExhausted {
		t.Error(err)
	}
}

// TestMoreCallsThanThereIsRoomFor has an address call three times as often as it may: a quarter of all.
func TestMoreCallsThanThereIsRoomFor(t *testing.T) {
	quit := make(chan struct{})
	address := fake(t, func(content []byte) []byte {
		if len(content) > 1 {
			<-quit
		}
		return healthy(content)
	})
	conn, ctx := dial(t, gateway(t, address, "--calls", "40", "--lookups", "2", "--deadline", "60").address)
	var wait sync.WaitGroup
	var mu sync.Mutex
	var once sync.Once
	count := map[codes.Code]int{}
	for i := 0; i < 30; i++ {
		wait.Add(1)
		go func() {
			defer wait.Done()
			_, err := lookup(ctx, conn)
			mu.Lock()
			defer mu.Unlock()
			if count[status.Code(err)]++; count[codes.ResourceExhausted] == 20 {
				once.Do(func() { close(quit) })
			}
		}()
	}
	wait.Wait()
	if count[codes.OK] != 10 || count[codes.ResourceExhausted] != 20 {
		t.Error(count)
	}
}

func TestACallUnderWayEndsBeforeTheProgram(t *testing.T) {
	asked, quit := make(chan struct{}, 1), make(chan struct{})
	address := fake(t, func(content []byte) []byte {
		if len(content) > 1 {
			asked <- struct{}{}
			<-quit
		}
		return healthy(content)
	})
	at := gateway(t, address, "--deadline", "60") // a busy machine may take long until it is told to end
	conn, ctx := dial(t, at.address)
	done := make(chan error)
	go func() {
		_, err := lookup(ctx, conn)
		done <- err
	}()
	<-asked
	at.signal(syscall.SIGTERM)
	waitUntil(t, "connections are still accepted", func() bool {
		conn, err := net.Dial("tcp", at.address)
		if err == nil {
			conn.Close()
		}
		return err != nil
	})
	close(quit)
	if err := <-done; err != nil {
		t.Error(err)
	}
	if err := at.wait(); err != nil {
		t.Error(err, at.log)
	}
}

// TestCallsThatDoNotEndAreCutShort has calls come and go on two connections while the program ends.
func TestCallsThatDoNotEndAreCutShort(t *testing.T) {
	quit := make(chan struct{})
	t.Cleanup(func() { close(quit) })
	address := fake(t, func(content []byte) []byte {
		if content[0] == 1 {
			<-quit
		}
		return healthy(content)
	})
	at := gateway(t, address, "--deadline", "2")
	for i := 0; i < 2; i++ {
		conn, ctx := dial(t, at.address)
		go register(ctx, conn, down(t, later))
		for c := 0; c < 8; c++ {
			go func() {
				for ctx.Err() == nil {
					lookup(ctx, conn)
				}
			}()
		}
	}
	time.Sleep(200 * time.Millisecond)
	begun := time.Now()
	if err := at.end(syscall.SIGTERM); err != nil || time.Since(begun) > limit {
		t.Error(err, time.Since(begun), at.log)
	}
}

func TestManyCallersHaveTheirOwnReplies(t *testing.T) {
	address := fake(t, func(content []byte) []byte {
		if content[0] == 2 && len(content) > 1 {
			var request pb.SegmentsRequest
			proto.Unmarshal(content[1:], &request)
			info := []byte(fmt.Sprint(request.DstIsdAs))
			out, _ := proto.Marshal(&pb.SegmentsResponse{Segments: map[int32]*pb.Segments{1: {Segments: []*pb.PathSegment{{SegmentInfo: info}}}}})
			return append([]byte{0x82}, out...)
		}
		return healthy(content)
	})
	conn, ctx := dial(t, gateway(t, address).address)
	var wait sync.WaitGroup
	for c := uint64(1); c <= 100; c++ {
		wait.Add(1)
		go func(c uint64) {
			defer wait.Done()
			for i := uint64(0); i < 20; i++ {
				got, err := control.NewSegmentLookupServiceClient(conn).Segments(ctx, &pb.SegmentsRequest{SrcIsdAs: core, DstIsdAs: c<<32 + i})
				if err != nil || string(got.Segments[1].Segments[0].SegmentInfo) != fmt.Sprint(c<<32+i) {
					t.Error(c, i, got, err)
				}
			}
		}(c)
	}
	wait.Wait()
}
