package connectapi

import (
	"bytes"
	"context"
	"encoding/base64"
	"io"
	"mime"
	"net/http"
	"net/url"
	"strconv"
	"strings"
	"time"

	"google.golang.org/grpc/codes"

	"pathd/gateway/internal/calls"
	"pathd/gateway/internal/packing"
)

const timeoutDigits = 10 // the most of Connect-Timeout-Ms

// request is what a call has asked, as far as its headers or its query say it.
type request struct {
	*format
	version, wanted string // of the protocol, where it is said, and the one that is served
	encoding        string // gzip, identity or empty
	open            func() (from io.Reader, size int64, err error)
}

// byPost answers the request of a POST, or false where its type is not known.
func byPost(r *http.Request) (request, bool) {
	its, isKnown := formats[mediaType(r)]
	return request{
		format: its, version: r.Header.Get("Connect-Protocol-Version"), wanted: "1", encoding: r.Header.Get("Content-Encoding"),
		open: func() (io.Reader, int64, error) { return r.Body, r.ContentLength, nil },
	}, isKnown
}

// byGet answers the request of a GET, or false where its encoding is not known.
func byGet(query url.Values) (request, bool) {
	its, isKnown := formats["application/"+query.Get("encoding")]
	return request{
		format: its, version: query.Get("connect"), wanted: "v1", encoding: query.Get("compression"),
		open: func() (io.Reader, int64, error) {
			if !query.Has("message") {
				return nil, 0, calls.NewFault(codes.InvalidArgument, "the query has no message")
			}
			content := []byte(query.Get("message"))
			if query.Get("base64") == "1" {
				var err error
				content, err = base64.RawURLEncoding.DecodeString(strings.TrimRight(string(content), "="))
				if err != nil {
					return nil, 0, calls.NewFault(codes.InvalidArgument, "the message is no base64: %v", err)
				}
			}
			return bytes.NewReader(content), int64(len(content)), nil
		},
	}, isKnown
}

func mediaType(r *http.Request) string {
	text := r.Header.Get("Content-Type")
	if !strings.Contains(text, ";") {
		return text
	}
	kind, words, err := mime.ParseMediaType(text)
	if charset := words["charset"]; err != nil || charset != "" && !strings.EqualFold(charset, "utf-8") {
		return ""
	}
	return kind
}

// limit looks at what a request says of the protocol, and answers how long the call may take: 0 is no limit.
func (q request) limit(r *http.Request) (time.Duration, *calls.Fault) {
	if q.version != "" && q.version != q.wanted {
		return 0, calls.NewFault(codes.InvalidArgument, "the version of the protocol has to be %s", q.wanted)
	}
	if q.encoding != "" && q.encoding != packing.Identity && q.encoding != packing.Name {
		return 0, calls.NewFault(codes.Unimplemented, "no such encoding: %q; there are gzip and identity", q.encoding)
	}
	text := r.Header.Get("Connect-Timeout-Ms")
	if text == "" {
		return 0, nil
	}
	number, err := strconv.ParseUint(text, 10, 63)
	if err != nil || len(text) > timeoutDigits {
		return 0, calls.NewFault(codes.InvalidArgument, "connect-timeout-ms has to be a number of at most %d digits", timeoutDigits)
	}
	return time.Duration(number)*time.Millisecond + 1, nil
}

// read answers the request as protobuf. The bounds are of what comes and of what that is in gzip.
func (q request) read(ctx context.Context, m *calls.Method) ([]byte, error) {
	from, size, err := q.open()
	if err != nil {
		return nil, err
	}
	if size > q.most {
		return nil, tooLarge(q.most)
	}
	content, err := readAll(from, size, q.most)
	if err == nil && len(content) > 0 && q.encoding == packing.Name {
		content, err = packing.Decompress(content, q.most)
	}
	switch {
	case err != nil && ctx.Err() != nil:
		return nil, ctx.Err()
	case err != nil:
		return nil, calls.NewFault(codes.InvalidArgument, "the request can't be read to its end: %v", err)
	case int64(len(content)) > q.most:
		return nil, tooLarge(q.most)
	}
	return q.format.read(m, content)
}

// readAll answers what comes, up to one byte more than the most. A negative size is not known.
func readAll(from io.Reader, size, most int64) ([]byte, error) {
	if size < 0 {
		return io.ReadAll(io.LimitReader(from, most+1))
	}
	content := make([]byte, size)
	_, err := io.ReadFull(from, content)
	return content, err
}

func tooLarge(most int64) error {
	return calls.NewFault(codes.ResourceExhausted, "a request has more than %d bytes", most)
}

// takesGzip answers whether a client takes a response in gzip.
func takesGzip(r *http.Request) bool {
	for _, one := range strings.Split(strings.Join(r.Header.Values("Accept-Encoding"), ","), ",") {
		name, weight, isWeighed := strings.Cut(strings.ReplaceAll(one, " ", ""), ";")
		if strings.EqualFold(name, packing.Name) && (!isWeighed || strings.Trim(weight, "q=0.") != "") {
			return true
		}
	}
	return false
}
