package calls

import (
	"context"

	"google.golang.org/grpc/codes"
	"google.golang.org/protobuf/proto"

	"pathd"
	control "pathd/gateway/internal/pb/controlplanepb"
)

const idSize = 32 // bytes of a segment's id

// HasRoles answers whether rules say who may make which calls: segments are removed by such a rule alone.
func (d *Desk) HasRoles() bool { return d.options.Roles != nil }

// Removal is SegmentRemovalService/Remove: the response says whether there was the segment.
func (d *Desk) Removal(ctx context.Context, request []byte) (Response, error) {
	asked := new(control.RemoveRequest)
	if err := proto.Unmarshal(request, asked); err != nil {
		return Response{}, NewFault(codes.InvalidArgument, "the request can't be read")
	}
	if len(asked.Id) != idSize {
		return Response{}, NewFault(codes.InvalidArgument, "an id has %d bytes", idSize)
	}
	if asked.Type < pathd.Up || asked.Type > pathd.Core {
		return Response{}, Refuse(pathd.BadType, "")
	}
	reply, err := d.command(ctx, pathd.KindRemove, append([]byte{byte(asked.Type)}, asked.Id...))
	if err != nil {
		return Response{}, err
	}
	done, err := pathd.ReadAck(reply)
	if err != nil {
		return Response{}, err
	}
	body, err := proto.Marshal(&control.RemoveResponse{Removed: done.Purged})
	return Response{Body: body}, err
}
