package connectapi

import (
	"encoding/json"
	"net/http"

	"google.golang.org/grpc/codes"

	"pathd/gateway/internal/calls"
	"pathd/gateway/internal/refusal"
)

// known has the names of Connect's codes, and their statuses of HTTP.
var known = map[codes.Code]struct {
	name   string
	status int
}{
	codes.Canceled:           {"canceled", 499},
	codes.Unknown:            {"unknown", http.StatusInternalServerError},
	codes.InvalidArgument:    {"invalid_argument", http.StatusBadRequest},
	codes.DeadlineExceeded:   {"deadline_exceeded", http.StatusGatewayTimeout},
	codes.NotFound:           {"not_found", http.StatusNotFound},
	codes.PermissionDenied:   {"permission_denied", http.StatusForbidden},
	codes.ResourceExhausted:  {"resource_exhausted", http.StatusTooManyRequests},
	codes.FailedPrecondition: {"failed_precondition", http.StatusBadRequest},
	codes.Unimplemented:      {"unimplemented", http.StatusNotImplemented},
	codes.Internal:           {"internal", http.StatusInternalServerError},
	codes.Unavailable:        {"unavailable", http.StatusServiceUnavailable},
}

// refuse ends a call by a fault. The code of the JSON is what counts for a client of Connect.
func refuse(w http.ResponseWriter, fault *calls.Fault) {
	to, isKnown := known[fault.Status]
	if !isKnown {
		to = known[codes.Internal]
	}
	w.Header().Set("Content-Type", "application/json")
	if fault.Code != 0 {
		w.Header().Set(calls.CodeKey, refusal.NumberOf(fault.Code))
	}
	w.WriteHeader(to.status)
	json.NewEncoder(w).Encode(map[string]string{"code": to.name, "message": fault.Text})
}
