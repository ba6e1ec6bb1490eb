package calls

import (
	"context"
	"strings"
	"sync"

	"google.golang.org/protobuf/proto"

	"pathd/gateway/internal/numbers"
	"pathd/gateway/internal/roles"
)

// The services, whose names are those that daemons of SCION hosts call, and that of removals.
const (
	LookupService       = "proto.control_plane.v1.SegmentLookupService"
	RegistrationService = "proto.control_plane.v1.SegmentRegistrationService"
	TrustService        = "proto.control_plane.v1.TrustMaterialService"
	RemovalService      = "pathd.gateway.v1.SegmentRemovalService"
)

// MoreKey is the key of the trailing metadata, and the header of Connect, of a response that is marked:
// it has the value true.
const MoreKey = "pathd-more"

// Response is a response to a call. More marks one that may lack segments which match.
type Response struct {
	Body []byte
	More bool
}

// Method is a method that is served.
type Method struct {
	// Service is the whole name of the service, and File the file of its descriptor.
	Service, Name, File string
	// Serve answers the response to the body of a request.
	Serve func(ctx context.Context, request []byte) (Response, error)
	// IsSafe is true where a call changes nothing: Connect then has it by GET, too.
	IsSafe bool
	// Action is what a client needs a rule for, where there are roles. Empty is none.
	Action roles.Action
	// Request and Response answer empty messages, by which JSON is read and written.
	Request, Response func() proto.Message

	once    sync.Once
	numbers *numbers.Method
}

// Numbers answers the method's numbers.
func (m *Method) Numbers() *numbers.Method {
	m.once.Do(func() {
		m.numbers = numbers.NewMethod(m.Service[strings.LastIndexByte(m.Service, '.')+1:] + "/" + m.Name)
	})
	return m.numbers
}

// Path answers the path by which the method is called, such as /package.Service/Method.
func (m *Method) Path() string { return "/" + m.Service + "/" + m.Name }
