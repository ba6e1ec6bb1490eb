// Package connectapi serves calls by the protocol of Connect, version 1: unary calls by POST, and by GET
// where they change nothing, with bodies of protobuf or of JSON, in gzip or not, over HTTP/1.1 and HTTP/2.
package connectapi

import (
	"context"
	"net/http"
	"strconv"

	"pathd/gateway/internal/calls"
	"pathd/gateway/internal/door"
	"pathd/gateway/internal/numbers"
	"pathd/gateway/internal/packing"
)

// leastCompressed is how many bytes a response has at least that is compressed.
const leastCompressed = 1024

// NewHandler answers the handler of methods.
func NewHandler(desk *calls.Desk, methods []*calls.Method) http.Handler {
	paths := http.NewServeMux()
	for _, m := range methods {
		paths.Handle(m.Path(), &handler{desk, m})
	}
	return paths
}

type handler struct {
	desk   *calls.Desk
	method *calls.Method
}

// ServeHTTP serves one call.
func (h *handler) ServeHTTP(w http.ResponseWriter, r *http.Request) {
	asked, isKnown := request{}, false
	switch {
	case r.Method == http.MethodPost:
		asked, isKnown = byPost(r)
	case r.Method == http.MethodGet && h.method.IsSafe:
		asked, isKnown = byGet(r.URL.Query())
		w.Header().Set("Vary", "Accept-Encoding")
		w.Header().Set("Cache-Control", "no-cache")
	default:
		w.Header().Set("Allow", h.allowed())
		w.WriteHeader(http.StatusMethodNotAllowed)
		return
	}
	if !isKnown {
		w.Header().Set("Accept-Post", "application/proto, application/json")
		w.WriteHeader(http.StatusUnsupportedMediaType)
		return
	}
	w.Header().Set("Accept-Encoding", packing.Name)
	limit, fault := asked.limit(r)
	if fault != nil {
		refuse(w, fault)
		return
	}
	ctx := r.Context()
	if limit > 0 {
		var cancel context.CancelFunc
		ctx, cancel = context.WithTimeout(ctx, limit)
		defer cancel()
	}
	conn := door.FromContext(r.Context())
	response, fault := h.desk.Serve(ctx, h.method, calls.Call{
		By: numbers.Connect, Conn: conn,
		Read: func(context.Context) ([]byte, error) { return asked.read(r.Context(), h.method) },
		Stop: func() { conn.ReadUntil(w, door.Past) },
	})
	if fault != nil {
		refuse(w, fault)
		return
	}
	h.answer(w, r, asked.format, response)
}

func (h *handler) allowed() string {
	if h.method.IsSafe {
		return "GET, POST"
	}
	return http.MethodPost
}

// answer writes a response.
func (h *handler) answer(w http.ResponseWriter, r *http.Request, body *format, response calls.Response) {
	content, fault := body.write(h.method, response.Body)
	if fault != nil {
		refuse(w, fault)
		return
	}
	if response.More {
		w.Header().Set(calls.MoreKey, "true")
	}
	if len(content) >= leastCompressed && takesGzip(r) {
		content = packing.Compress(content)
		w.Header().Set("Content-Encoding", packing.Name)
		door.FromContext(r.Context()).OweLess(len(response.Body) - len(content))
	}
	w.Header()["Content-Type"] = body.contentType
	w.Header()["Content-Length"] = []string{strconv.Itoa(len(content))}
	w.Write(content)
}
