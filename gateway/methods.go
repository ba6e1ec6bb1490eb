package main

import (
	"google.golang.org/protobuf/proto"

	"pathd/gateway/internal/calls"
	control "pathd/gateway/internal/pb/controlplanepb"
	"pathd/gateway/internal/roles"
	"pathd/gateway/internal/trust"
	"pathd/segmentspb"
)

// The files of the services, as their descriptors name them.
const (
	segmentsFile = "control_plane.proto"
	trustFile    = "trust_material.proto"
	removalFile  = "removal.proto"
)

// methodsOf answers what is served. keeper is nil where there is no trust material. Segments are removed
// where there are roles alone, as a rule has to allow it.
func methodsOf(desk *calls.Desk, keeper *trust.Keeper) []*calls.Method {
	methods := []*calls.Method{
		{
			Service: calls.LookupService, Name: "Segments", File: segmentsFile, Serve: desk.Segments, IsSafe: true, Action: roles.LookUp,
			Request:  func() proto.Message { return new(segmentspb.SegmentsRequest) },
			Response: func() proto.Message { return new(segmentspb.SegmentsResponse) },
		},
		{
			Service: calls.RegistrationService, Name: "SegmentsRegistration", File: segmentsFile, Serve: desk.Registration, Action: roles.Register,
			Request:  func() proto.Message { return new(segmentspb.SegmentsRegistrationRequest) },
			Response: func() proto.Message { return new(control.SegmentsRegistrationResponse) },
		},
	}
	if desk.HasRoles() {
		methods = append(methods, &calls.Method{
			Service: calls.RemovalService, Name: "Remove", File: removalFile, Serve: desk.Removal, Action: roles.Remove,
			Request:  func() proto.Message { return new(control.RemoveRequest) },
			Response: func() proto.Message { return new(control.RemoveResponse) },
		})
	}
	if keeper == nil {
		return methods
	}
	return append(methods, &calls.Method{
		Service: calls.TrustService, Name: "TRC", File: trustFile, Serve: keeper.TRC, IsSafe: true,
		Request:  func() proto.Message { return new(control.TRCRequest) },
		Response: func() proto.Message { return new(control.TRCResponse) },
	}, &calls.Method{
		Service: calls.TrustService, Name: "Chains", File: trustFile, Serve: keeper.Chains, IsSafe: true,
		Request:  func() proto.Message { return new(control.ChainsRequest) },
		Response: func() proto.Message { return new(control.ChainsResponse) },
	})
}
