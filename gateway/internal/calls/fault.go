package calls

import (
	"context"
	"errors"
	"fmt"

	"google.golang.org/grpc/codes"
	"google.golang.org/grpc/status"

	"pathd"
	"pathd/gateway/internal/refusal"
)

// CodeKey is the key of the trailing metadata, and the header of Connect, that has pathd's code.
const CodeKey = "pathd-code"

// Fault is how a call ends that has no response. Code is 0 where nothing was refused by a code.
// IsForRoom is true where the gateway has turned the call away for want of room.
type Fault struct {
	Status    codes.Code
	Code      pathd.Code
	Text      string
	IsForRoom bool
}

// Error answers the text.
func (f *Fault) Error() string { return f.Text }

// number answers the code as calls have it, or nothing.
func (f *Fault) number() string {
	if f.Code == 0 {
		return ""
	}
	return refusal.NumberOf(f.Code)
}

// NewFault answers a fault without a code.
func NewFault(status codes.Code, format string, words ...any) *Fault {
	return &Fault{Status: status, Text: fmt.Sprintf(format, words...)}
}

// noRoom answers the fault of a call that is turned away for want of room.
func noRoom(text string) *Fault {
	return &Fault{Status: codes.ResourceExhausted, Text: text, IsForRoom: true}
}

// Refuse answers the fault of a code, with what there is to say in addition.
func Refuse(code pathd.Code, more string) *Fault {
	text := refusal.TextOf(code)
	if more != "" {
		text += ": " + more
	}
	return &Fault{Status: refusal.MeaningOf(code).Status, Code: code, Text: text}
}

// FaultOf answers the fault of an error that is not nil.
func FaultOf(err error) *Fault {
	var known *Fault
	var code pathd.Code
	var ended *pathd.SessionError
	switch {
	case errors.As(err, &known):
		return known
	case errors.As(err, &code):
		return Refuse(code, "")
	case errors.Is(err, pathd.ErrReply):
		return NewFault(codes.Internal, "%v", err)
	case errors.Is(err, pathd.ErrStuck):
		return NewFault(codes.DeadlineExceeded, "%v", err)
	case errors.As(err, &ended), errors.Is(err, pathd.ErrClosed), errors.Is(err, pathd.ErrDropped):
		return NewFault(codes.Unavailable, "%v", err)
	case errors.Is(err, context.DeadlineExceeded):
		return NewFault(codes.DeadlineExceeded, "there was no reply in time")
	case errors.Is(err, context.Canceled):
		return NewFault(codes.Canceled, "the client has ended the call")
	}
	if it, isStatus := status.FromError(err); isStatus {
		return NewFault(it.Code(), "%s", it.Message())
	}
	return NewFault(codes.Internal, "%v", err)
}
