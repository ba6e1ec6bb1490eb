package grpcapi

import (
	"compress/gzip"
	"context"
	"io"

	"google.golang.org/grpc"
	"google.golang.org/grpc/encoding"

	"pathd/gateway/internal/packing"
)

// compressor has grpc-go take requests in gzip, and answer those in gzip. A response of the desk is compressed
// before grpc-go has it, as the connection owes no more than what is written.
type compressor struct{}

func init() {
	encoding.RegisterCompressor(compressor{})
}

// Name answers gzip.
func (compressor) Name() string { return packing.Name }

// Decompress answers what is in gzip. grpc-go reads no more of it than a request may have.
func (compressor) Decompress(from io.Reader) (io.Reader, error) { return gzip.NewReader(from) }

// Compress answers what compresses the one message that is written to it.
func (compressor) Compress(to io.Writer) (io.WriteCloser, error) { return &message{to}, nil }

type message struct{ to io.Writer }

// Write writes the message in gzip.
func (m *message) Write(content []byte) (int, error) {
	packed := content
	if !packing.IsCompressed(content) {
		packed = packing.Compress(content)
	}
	if _, err := m.to.Write(packed); err != nil {
		return 0, err
	}
	return len(content), nil
}

// Close does nothing.
func (*message) Close() error { return nil }

// isInGzip answers whether the request of a call names gzip: its response is then in gzip, too.
func isInGzip(ctx context.Context) bool {
	it, isKnown := grpc.ServerTransportStreamFromContext(ctx).(interface{ RecvCompress() string })
	return isKnown && it.RecvCompress() == packing.Name
}
