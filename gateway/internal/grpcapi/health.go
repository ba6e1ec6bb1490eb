package grpcapi

import (
	"google.golang.org/grpc"
	"google.golang.org/grpc/codes"
	"google.golang.org/grpc/health"
	healthpb "google.golang.org/grpc/health/grpc_health_v1"
	"google.golang.org/grpc/status"
)

const checkPath = "/grpc.health.v1.Health/Check"

// registerHealth has a server answer health checks. Check is one of streams, as the methods of the desk
// are.
func registerHealth(server *grpc.Server, checks *health.Server) {
	server.RegisterService(&grpc.ServiceDesc{
		ServiceName: "grpc.health.v1.Health",
		HandlerType: (*healthpb.HealthServer)(nil),
		Streams: []grpc.StreamDesc{
			{StreamName: "Check", Handler: check},
			{StreamName: "Watch", Handler: watch, ServerStreams: true},
		},
		Metadata: "grpc/health/v1/health.proto",
	}, checks)
}

func check(server any, stream grpc.ServerStream) error {
	request := new(healthpb.HealthCheckRequest)
	if err := stream.RecvMsg(request); err != nil {
		return noEOF(err)
	}
	response, err := server.(healthpb.HealthServer).Check(stream.Context(), request)
	if err != nil {
		return err
	}
	return stream.SendMsg(response)
}

// watch keeps watches of services that there are not from the health server of grpc-go, which would
// remember their names for ever. Services do not come later.
func watch(server any, stream grpc.ServerStream) error {
	request := new(healthpb.HealthCheckRequest)
	if err := stream.RecvMsg(request); err != nil {
		return noEOF(err)
	}
	checks := server.(healthpb.HealthServer)
	if _, err := checks.Check(stream.Context(), request); status.Code(err) != codes.NotFound {
		return checks.Watch(request, watched{stream})
	}
	if err := stream.SendMsg(&healthpb.HealthCheckResponse{Status: healthpb.HealthCheckResponse_SERVICE_UNKNOWN}); err != nil {
		return err
	}
	<-stream.Context().Done()
	return status.FromContextError(stream.Context().Err()).Err()
}

// watched is the stream of a watch.
type watched struct{ grpc.ServerStream }

// Send sends a status.
func (w watched) Send(response *healthpb.HealthCheckResponse) error { return w.SendMsg(response) }
