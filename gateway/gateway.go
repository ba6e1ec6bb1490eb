package main

import (
	"bytes"
	"context"
	"fmt"
	"log"
	"net"
	"net/http"
	"os"
	"strings"
	"time"

	"golang.org/x/net/http2"
	"google.golang.org/grpc"
	"google.golang.org/grpc/health"

	"pathd/gateway/internal/calls"
	"pathd/gateway/internal/connectapi"
	"pathd/gateway/internal/door"
	"pathd/gateway/internal/grpcapi"
	"pathd/gateway/internal/roles"
	"pathd/gateway/internal/settings"
	"pathd/gateway/internal/trust"
	"pathd/gateway/internal/upstream"
)

const (
	headerLimit = 10 * time.Second // to send the headers of a request by HTTP/1
	owedByOne   = 8 << 20
	owedByAll   = 128 << 20
	h2Buffer    = 65_535  // bytes of a request that a stream has in memory
	h2Conn      = 1 << 18 // and all streams of a connection
	h2Frame     = 1 << 14 // bytes of a frame

	// What net/http and http2 add to the most bytes of headers.
	ofHTTP1 = 4096
	ofHTTP2 = 320
)

// gateway is all that serves.
type gateway struct {
	settings     *settings.Settings
	certificates *certificates // nil without TLS
	keeper       *trust.Keeper // nil without trust material
	roles        *roles.Roles  // nil where all clients may make all calls
	servers      *upstream.Servers
	desk         *calls.Desk
	methods      []*calls.Method
	checks       *health.Server
	watcher      *watcher
	grpc         *grpc.Server
	web          *http.Server  // of HTTP/1
	ofH2         *http.Server  // has the limits of HTTP/2
	h2           *http2.Server // of HTTP/2 that is not gRPC's
	door         *door.Door
	begun        time.Time
	reloads      reloads
}

// newGateway makes ready what serves at a listener, and starts nothing.
func newGateway(s *settings.Settings, listener net.Listener) (g *gateway, err error) {
	g = &gateway{settings: s, begun: time.Now(), checks: health.NewServer()}
	if g.certificates, err = newCertificates(s); err != nil {
		return nil, err
	}
	if s.Trust != "" {
		if g.keeper, err = trust.Open(trust.Options{Folder: s.Trust, Server: s.TrustServer}); err != nil {
			return nil, err
		}
	}
	if s.Roles != "" {
		if g.roles, err = roles.Open(s.Roles); err != nil {
			return nil, err
		}
	}
	if g.servers, err = serversOf(s); err != nil {
		return nil, err
	}
	g.door = door.New(listener, door.Options{
		Connections: s.Connections, PeerConnections: s.PeerConnections,
		OwedByOne: owedByOne, OwedByAll: owedByAll,
		Streams: uint32(s.Streams), Stuck: s.Deadline, TLS: g.certificates.current(),
	}, g.serveHTTP2)
	g.desk = g.newDesk()
	g.methods = methodsOf(g.desk, g.keeper)
	g.watcher = newWatcher(g.servers.Each(), g.checks, g.services())
	g.grpc = grpcapi.NewServer(g.desk, g.methods, g.checks, grpcapi.Options{Streams: uint32(s.Streams), Idle: s.Idle})
	return g, g.makeWeb()
}

func (g *gateway) newDesk() *calls.Desk {
	s := g.settings
	options := calls.Options{
		Pathd: g.servers, MostSegments: s.MostSegments, Deadline: s.Deadline,
		Calls: s.Calls, Registrations: s.Registrations, Roles: g.roles,
	}
	if g.keeper != nil {
		options.Verifier = g.keeper
	}
	if s.Log != "" {
		options.Journal = calls.NewJournal(calls.Format(s.Log), os.Stderr)
	}
	return calls.NewDesk(options)
}

func serversOf(s *settings.Settings) (*upstream.Servers, error) {
	return upstream.New(upstream.Options{
		Addresses: s.Pathd, Lookups: s.Lookups, Registrations: s.Registrations, Window: calls.OfSession, Deadline: s.Deadline,
	})
}

// services answers the names by which health is asked for.
func (g *gateway) services() []string {
	names := []string{""}
	for _, m := range g.methods {
		if names[len(names)-1] != m.Service {
			names = append(names, m.Service)
		}
	}
	return names
}

// makeWeb makes the servers of HTTP/1, and of HTTP/2 that is not gRPC's.
func (g *gateway) makeWeb() error {
	handler := g.webHandler()
	g.web, g.ofH2 = g.webServer(handler, ofHTTP1), g.webServer(handler, ofHTTP2)
	g.h2 = &http2.Server{
		MaxConcurrentStreams:         uint32(g.settings.Streams),
		MaxReadFrameSize:             h2Frame,
		IdleTimeout:                  g.settings.Idle,
		MaxUploadBufferPerStream:     h2Buffer,
		MaxUploadBufferPerConnection: h2Conn,
	}
	if err := http2.ConfigureServer(g.web, g.h2); err != nil {
		return fmt.Errorf("HTTP/2: %w", err)
	}
	return nil
}

// webHandler answers what serves calls of Connect. A connection of HTTP/2 whose first request is Connect's
// may have calls of gRPC later.
func (g *gateway) webHandler() http.Handler {
	connect, byGRPC := connectapi.NewHandler(g.desk, g.methods), grpcapi.Handler(g.grpc, g.settings.Deadline)
	return http.HandlerFunc(func(w http.ResponseWriter, r *http.Request) {
		if r.ProtoMajor == 2 && strings.HasPrefix(r.Header.Get("Content-Type"), "application/grpc") {
			byGRPC.ServeHTTP(w, r)
		} else {
			connect.ServeHTTP(w, r)
		}
	})
}

// webServer answers a server that takes so many bytes of headers more than it is told to.
func (g *gateway) webServer(handler http.Handler, more int) *http.Server {
	return &http.Server{
		Handler:           handler,
		ReadHeaderTimeout: headerLimit,
		ReadTimeout:       headerLimit + g.settings.Deadline,
		WriteTimeout:      headerLimit + 3*g.settings.Deadline,
		IdleTimeout:       g.settings.Idle,
		MaxHeaderBytes:    door.MostHeader - more,
		ErrorLog:          log.New(panicLog{}, "", 0),
		ConnContext: func(ctx context.Context, conn net.Conn) context.Context {
			it, _ := conn.(*door.Conn)
			return door.NewContext(ctx, it)
		},
	}
}

// panicLog passes on the lines of panics, and drops those of faulty peers, who could fill the log.
type panicLog struct{}

func (panicLog) Write(line []byte) (int, error) {
	if bytes.HasPrefix(line, []byte("http: panic")) || bytes.HasPrefix(line, []byte("http2: panic")) {
		log.Print(string(line))
	}
	return len(line), nil
}

// serveHTTP2 serves a connection whose first request is not gRPC's, until it ends.
func (g *gateway) serveHTTP2(conn *door.Conn) {
	ctx := door.NewContext(context.Background(), conn)
	g.h2.ServeConn(conn, &http2.ServeConnOpts{Context: ctx, BaseConfig: g.ofH2, Handler: g.ofH2.Handler})
}

// drain lets calls under way end, for as long as the deadline, and then ends all.
func (g *gateway) drain() {
	ctx, cancel := context.WithTimeout(context.Background(), g.settings.Deadline)
	defer cancel()
	g.checks.Shutdown()
	g.door.Close()
	drained := make(chan struct{})
	go func() {
		g.grpc.GracefulStop()
		close(drained)
	}()
	if err := g.web.Shutdown(ctx); err != nil {
		log.Printf("calls of Connect were cut short: %v", err)
	}
	g.door.Wait(ctx)
	select {
	case <-drained:
	case <-ctx.Done():
		log.Print("calls of gRPC were cut short")
	}
	g.web.Close()
	g.door.End() // with the connections that gRPC has left
	g.servers.Close()
}
