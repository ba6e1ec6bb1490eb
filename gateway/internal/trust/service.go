package trust

import (
	"context"
	"time"

	"google.golang.org/grpc/codes"
	"google.golang.org/protobuf/proto"
	"google.golang.org/protobuf/types/known/timestamppb"

	"pathd/gateway/internal/calls"
	"pathd/gateway/internal/cppki"
	control "pathd/gateway/internal/pb/controlplanepb"
)

// TRC is TrustMaterialService/TRC.
func (k *Keeper) TRC(_ context.Context, body []byte) (calls.Response, error) {
	request := new(control.TRCRequest)
	if err := proto.Unmarshal(body, request); err != nil {
		return calls.Response{}, calls.NewFault(codes.InvalidArgument, "the request can't be read")
	}
	found := k.material.Load().TRC(int64(request.Isd), int64(request.Base), int64(request.Serial))
	if found == nil {
		return calls.Response{}, calls.NewFault(codes.NotFound, "there is no such TRC")
	}
	return responseOf(&control.TRCResponse{Trc: found.Raw})
}

// Chains is TrustMaterialService/Chains.
func (k *Keeper) Chains(_ context.Context, body []byte) (calls.Response, error) {
	request := new(control.ChainsRequest)
	if err := proto.Unmarshal(body, request); err != nil {
		return calls.Response{}, calls.NewFault(codes.InvalidArgument, "the request can't be read")
	}
	now := time.Now()
	since, until := momentOf(request.AtLeastValidSince, now), momentOf(request.AtLeastValidUntil, now)
	response := new(control.ChainsResponse)
	for _, one := range k.material.Load().Chains(cppki.ISDAS(request.IsdAs), request.SubjectKeyId, since, until) {
		response.Chains = append(response.Chains, &control.Chain{AsCert: one.AS.Raw, CaCert: one.CA.Raw})
	}
	return responseOf(response)
}

func responseOf(message proto.Message) (calls.Response, error) {
	body, err := proto.Marshal(message)
	return calls.Response{Body: body}, err
}

func momentOf(of *timestamppb.Timestamp, otherwise time.Time) time.Time {
	if of == nil {
		return otherwise
	}
	return of.AsTime()
}
