package connectapi

import (
	"encoding/json"

	"google.golang.org/grpc/codes"
	"google.golang.org/protobuf/encoding/protojson"
	"google.golang.org/protobuf/proto"

	"pathd"
	"pathd/gateway/internal/calls"
)

// jsonBytes is how many bytes of JSON there are for one of protobuf, at most: base64 and names.
const jsonBytes = 4

// format is what the bodies of a call are written in.
type format struct {
	contentType []string
	most        int64 // bytes of a request
	// read answers a request's bytes as protobuf, and write a response's bytes from it.
	read  func(*calls.Method, []byte) ([]byte, error)
	write func(*calls.Method, []byte) ([]byte, *calls.Fault)
}

var formats = map[string]*format{
	"application/proto": {
		contentType: []string{"application/proto"},
		most:        pathd.MostRequest,
		read:        func(_ *calls.Method, content []byte) ([]byte, error) { return content, nil },
		write:       func(_ *calls.Method, content []byte) ([]byte, *calls.Fault) { return content, nil },
	},
	"application/json": {
		contentType: []string{"application/json"},
		most:        jsonBytes * pathd.MostRequest,
		read:        fromJSON,
		write:       toJSON,
	},
}

// fromJSON answers the protobuf of a message in JSON. Text that is no JSON, or too deep, is refused before
// protojson of Debian 12 (1.28) reads it: for some such texts that does not return (CVE-2024-24786).
func fromJSON(m *calls.Method, content []byte) ([]byte, error) {
	if !json.Valid(content) {
		return nil, calls.NewFault(codes.InvalidArgument, "the request is no JSON")
	}
	request := m.Request()
	if err := (protojson.UnmarshalOptions{DiscardUnknown: true}).Unmarshal(content, request); err != nil {
		return nil, calls.NewFault(codes.InvalidArgument, "the request is no JSON of its message: %v", err)
	}
	return proto.MarshalOptions{Deterministic: true}.Marshal(request)
}

func toJSON(m *calls.Method, content []byte) ([]byte, *calls.Fault) {
	response := m.Response()
	if err := proto.Unmarshal(content, response); err != nil {
		return nil, calls.NewFault(codes.Internal, "the response is no message: %v", err)
	}
	out, err := protojson.Marshal(response)
	if err != nil {
		return nil, calls.NewFault(codes.Internal, "the response has no JSON: %v", err)
	}
	return out, nil
}
