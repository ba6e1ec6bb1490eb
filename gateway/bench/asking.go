package main

import (
	"bytes"
	"context"
	"fmt"
	"io"
	"net"
	"net/http"
	"strings"

	"google.golang.org/grpc"

	"pathd/gateway/internal/grpcapi"
)

const (
	lookupMethod       = "/proto.control_plane.v1.SegmentLookupService/Segments"
	registrationMethod = "/proto.control_plane.v1.SegmentRegistrationService/SegmentsRegistration"
	mostConnections    = 8 // of gRPC, which callers share
)

// target is a server that is measured, with the processes whose processor time its calls take.
type target struct {
	name, protocol, address string
	processes               []string
}

// parseTarget reads NAME=PROTOCOL@ADDR or NAME=PROTOCOL@ADDR@PID,PID.
func parseTarget(text string) (target, error) {
	name, rest, isNamed := strings.Cut(text, "=")
	parts := strings.Split(rest, "@")
	if !isNamed || len(parts) < 2 || parts[0] != "grpc" && parts[0] != "connect" {
		return target{}, fmt.Errorf("%q is no target", text)
	}
	it := target{name: name, protocol: parts[0], address: parts[1]}
	if len(parts) > 2 {
		it.processes = strings.Split(parts[2], ",")
	}
	return it, nil
}

// asker carries out a call of a caller, and answers the body of its response.
type asker func(ctx context.Context, caller int, method string, body []byte) ([]byte, error)

// connect answers what asks a target, and what ends its connections.
func (t target) connect(ctx context.Context, callers int) (asker, func(), error) {
	if t.protocol == "connect" {
		ask, end := t.byConnect()
		return ask, end, nil
	}
	count := callers
	if count > mostConnections {
		count = mostConnections
	}
	var all []*grpc.ClientConn
	end := func() {
		for _, it := range all {
			it.Close()
		}
	}
	for i := 0; i < count; i++ {
		conn, err := grpc.DialContext(ctx, t.address, grpc.WithInsecure(), grpc.WithBlock())
		if err != nil {
			end()
			return nil, nil, err
		}
		all = append(all, conn)
	}
	return func(ctx context.Context, caller int, method string, body []byte) ([]byte, error) {
		var out grpcapi.Raw
		err := all[caller%count].Invoke(ctx, method, grpcapi.Raw(body), &out)
		return out, err
	}, end, nil
}

// byConnect asks over HTTP/1.1, with a connection for each caller.
func (t target) byConnect() (asker, func()) {
	transport := &http.Transport{MaxIdleConns: 100, MaxIdleConnsPerHost: 100, DisableCompression: true}
	client := &http.Client{Transport: transport}
	return func(ctx context.Context, _ int, method string, body []byte) ([]byte, error) {
		request, err := http.NewRequestWithContext(ctx, http.MethodPost, "http://"+t.address+method, bytes.NewReader(body))
		if err != nil {
			return nil, err
		}
		request.Header.Set("Content-Type", "application/proto")
		response, err := client.Do(request)
		if err != nil {
			return nil, err
		}
		defer response.Body.Close()
		out, err := io.ReadAll(response.Body)
		if err == nil && response.StatusCode != http.StatusOK {
			err = fmt.Errorf("%d %s", response.StatusCode, out)
		}
		return out, err
	}, transport.CloseIdleConnections
}

// serveEcho answers each call of both methods by so many bytes.
func serveEcho(address string, size int) error {
	listener, err := net.Listen("tcp", address)
	if err != nil {
		return err
	}
	reply := grpcapi.Raw(make([]byte, size))
	answer := func(_ any, _ context.Context, decode func(any) error, _ grpc.UnaryServerInterceptor) (any, error) {
		return reply, decode(new(grpcapi.Raw))
	}
	server := grpc.NewServer()
	for _, method := range []string{lookupMethod, registrationMethod} {
		service, name, _ := strings.Cut(method[1:], "/")
		server.RegisterService(&grpc.ServiceDesc{ServiceName: service,
			Methods: []grpc.MethodDesc{{MethodName: name, Handler: answer}}}, nil)
	}
	fmt.Println("serves at", listener.Addr())
	return server.Serve(listener)
}
