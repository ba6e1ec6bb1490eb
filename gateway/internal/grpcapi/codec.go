package grpcapi

import (
	"fmt"

	legacy "github.com/golang/protobuf/proto"
	"google.golang.org/grpc/encoding"
	"google.golang.org/protobuf/proto"
)

// Raw is the body of a message that is handed on without being decoded.
type Raw []byte

// codec takes the place of gRPC's own for protobuf: it has Raw in addition.
type codec struct{}

func init() {
	encoding.RegisterCodec(codec{})
}

// Marshal answers the bytes of a message.
func (codec) Marshal(v any) ([]byte, error) {
	switch it := v.(type) {
	case Raw:
		return it, nil
	case proto.Message:
		return proto.Marshal(it)
	case legacy.Message:
		return legacy.Marshal(it)
	}
	return nil, fmt.Errorf("no message: %T", v)
}

// Unmarshal reads a message. The bytes of a Raw stay those of the caller, which gives them away.
func (codec) Unmarshal(data []byte, v any) error {
	switch it := v.(type) {
	case *Raw:
		*it = data
		return nil
	case proto.Message:
		return proto.Unmarshal(data, it)
	case legacy.Message:
		return legacy.Unmarshal(data, it)
	}
	return fmt.Errorf("no message: %T", v)
}

// Name answers the content subtype, which is also that of calls without one.
func (codec) Name() string { return "proto" }
