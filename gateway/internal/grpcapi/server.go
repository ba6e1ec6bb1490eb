// Package grpcapi serves calls by gRPC, on the transport of grpc-go.
package grpcapi

import (
	"context"
	"io"
	"net/http"
	"strings"
	"time"

	"google.golang.org/grpc"
	"google.golang.org/grpc/codes"
	"google.golang.org/grpc/health"
	"google.golang.org/grpc/keepalive"
	"google.golang.org/grpc/metadata"
	"google.golang.org/grpc/peer"
	"google.golang.org/grpc/reflection"
	"google.golang.org/grpc/status"
	"google.golang.org/grpc/tap"

	"pathd"
	"pathd/gateway/internal/calls"
	"pathd/gateway/internal/door"
	"pathd/gateway/internal/numbers"
	"pathd/gateway/internal/packing"
	"pathd/gateway/internal/refusal"
	"pathd/gateway/internal/shares"
)

const (
	// streamWindow is the least that HTTP/2 has: the settings of a connection then need not name it,
	// and grpc-go measures no connection to find a larger one.
	streamWindow = 65_535
	connWindow   = 1 << 18

	pingAfter  = time.Minute // without a frame of the peer
	pingLimit  = 20 * time.Second
	pingsApart = 10 * time.Second // the least that a peer's own pings have to be apart
	greeting   = 10 * time.Second

	// workers are goroutines that serve calls, as long as one is free: a new goroutine has its stack
	// grow in each call. Stop must not be called with them, as a stream that comes meanwhile panics.
	workers = 256

	// mostOthers is how many calls of health and reflection may be under way, and othersPatience how long
	// one is before others of its peer need its place.
	mostOthers     = 256
	othersPatience = 5 * time.Second
)

// Options of a server.
type Options struct {
	// Streams is how many calls a connection may have under way.
	Streams uint32
	// Idle is how long a connection may have no call.
	Idle time.Duration
}

// NewServer answers a server of methods, of health checks and of reflection.
func NewServer(desk *calls.Desk, methods []*calls.Method, checks *health.Server, options Options) *grpc.Server {
	server := grpc.NewServer(
		grpc.MaxRecvMsgSize(pathd.MostRequest),
		grpc.MaxSendMsgSize(calls.MostResponse),
		grpc.MaxConcurrentStreams(options.Streams),
		grpc.NumStreamWorkers(workers),
		grpc.MaxHeaderListSize(door.MostHeader),
		grpc.InitialWindowSize(streamWindow),
		grpc.InitialConnWindowSize(connWindow),
		grpc.ConnectionTimeout(greeting),
		grpc.KeepaliveParams(keepalive.ServerParameters{
			MaxConnectionIdle: options.Idle, Time: pingAfter, Timeout: pingLimit}),
		grpc.KeepaliveEnforcementPolicy(keepalive.EnforcementPolicy{
			MinTime: pingsApart, PermitWithoutStream: true}),
		grpc.InTapHandle(limiter(desk.Deadline())),
		grpc.StreamInterceptor(bounded(shares.New(shares.Bounds{
			All: mostOthers, OfPeer: shares.Quarter(mostOthers), Patience: othersPatience}))),
	)
	for service, its := range byService(methods) {
		server.RegisterService(description(desk, service, its), nil)
	}
	registerHealth(server, checks)
	reflection.Register(server)
	return server
}

// Handler answers what has a server serve the calls of connections that it has not accepted itself. Version 1
// of reflection, which grpc-go of Debian 12 lacks, has the messages of v1alpha.
func Handler(server *grpc.Server, limit time.Duration) http.Handler {
	return http.HandlerFunc(func(w http.ResponseWriter, r *http.Request) {
		conn := door.FromContext(r.Context())
		r.URL.Path = strings.Replace(r.URL.Path, "/grpc.reflection.v1.", "/grpc.reflection.v1alpha.", 1)
		if hasEnd(r.URL.Path) {
			conn.ReadUntil(w, time.Now().Add(limit))
		}
		var stop context.CancelFunc = func() { conn.ReadUntil(w, door.Past) }
		server.ServeHTTP(w, r.WithContext(context.WithValue(r.Context(), stopKey{}, stop)))
	})
}

// limiter bounds calls by a deadline from their first byte on: a client that sends a request slowly, or
// takes a response slowly, ends with it.
func limiter(limit time.Duration) tap.ServerInHandle {
	return func(ctx context.Context, info *tap.Info) (context.Context, error) {
		// The context of the stream, which is over with it, ends this one.
		ctx, stop := context.WithCancel(ctx)
		if hasEnd(info.FullMethodName) {
			ctx, stop = context.WithTimeout(ctx, limit)
		}
		return context.WithValue(ctx, stopKey{}, stop), nil
	}
}

// hasEnd answers whether the calls of a method end by themselves: watches and reflection do not.
func hasEnd(path string) bool { return isOfDesk(path) || path == checkPath }

type stopKey struct{}

// stopOf answers what ends the call of a context.
func stopOf(ctx context.Context) context.CancelFunc {
	if stop, isThere := ctx.Value(stopKey{}).(context.CancelFunc); isThere {
		return stop
	}
	return func() {}
}

// isOfDesk answers whether a method is one that a desk serves, and bounds.
func isOfDesk(path string) bool {
	return strings.HasPrefix(path, "/proto.control_plane.v1.") || strings.HasPrefix(path, "/"+calls.RemovalService)
}

// bounded has a place for each call that no desk bounds, from its first byte on. The oldest one ends
// where its place is needed.
func bounded(places *shares.Pool) grpc.StreamServerInterceptor {
	return func(server any, stream grpc.ServerStream, info *grpc.StreamServerInfo, handler grpc.StreamHandler) error {
		if isOfDesk(info.FullMethod) {
			return handler(server, stream)
		}
		ctx := stream.Context()
		place := places.Claim(&watching{time.Now().UnixNano(), stopOf(ctx)}, connOf(ctx).Peers()...)
		if !place.Take(1) {
			return status.Error(codes.ResourceExhausted, "too many calls of health and reflection are under way")
		}
		defer place.GiveAll()
		return handler(server, stream)
	}
}

// watching is a call that no desk bounds.
type watching struct {
	begun int64
	stop  context.CancelFunc
}

// IdleSince answers when the call began.
func (w *watching) IdleSince() int64 { return w.begun }

// Lose ends the call.
func (w *watching) Lose() { w.stop() }

func byService(methods []*calls.Method) map[string][]*calls.Method {
	found := map[string][]*calls.Method{}
	for _, m := range methods {
		found[m.Service] = append(found[m.Service], m)
	}
	return found
}

func description(desk *calls.Desk, service string, methods []*calls.Method) *grpc.ServiceDesc {
	it := &grpc.ServiceDesc{ServiceName: service, Metadata: methods[0].File}
	for _, m := range methods {
		it.Streams = append(it.Streams, grpc.StreamDesc{StreamName: m.Name, Handler: handler(desk, m)})
	}
	return it
}

// handler serves a method by its bytes, as one of streams: grpc-go calls the handlers of others once the
// request has come, and the desk would not bound how many are still to come.
func handler(desk *calls.Desk, m *calls.Method) grpc.StreamHandler {
	return func(_ any, stream grpc.ServerStream) error {
		conn := connOf(stream.Context())
		response, fault := desk.Serve(stream.Context(), m, calls.Call{
			By:   numbers.GRPC,
			Conn: conn,
			Stop: stopOf(stream.Context()),
			Read: func(context.Context) (request []byte, err error) {
				err = stream.RecvMsg((*Raw)(&request))
				return request, noEOF(err)
			},
		})
		if response.More {
			stream.SetTrailer(metadata.Pairs(calls.MoreKey, "true"))
		}
		if fault == nil {
			body := response.Body
			if isInGzip(stream.Context()) {
				body = packing.Compress(body)
				conn.OweLess(len(response.Body) - len(body))
			}
			return stream.SendMsg(Raw(body))
		}
		if fault.Code != 0 {
			stream.SetTrailer(metadata.Pairs(calls.CodeKey, refusal.NumberOf(fault.Code)))
		}
		return status.Error(fault.Status, fault.Text)
	}
}

// noEOF answers the error of a call without a request in the place of the end of its stream.
func noEOF(err error) error {
	if err == io.EOF {
		return status.Error(codes.Internal, "the call has no request")
	}
	return err
}

// connOf answers the connection of a call, or nil where it is not known.
func connOf(ctx context.Context) *door.Conn {
	if it := door.FromContext(ctx); it != nil {
		return it
	}
	if it, isThere := peer.FromContext(ctx); isThere {
		return door.ConnOf(it.Addr)
	}
	return nil
}
