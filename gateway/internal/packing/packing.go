// Package packing has gzip, which clients of both protocols may ask for.
package packing

import (
	"bytes"
	"compress/gzip"
	"io"
	"runtime"
	"sync"
)

// Name is the name of gzip, and Identity that of no encoding.
const (
	Name     = "gzip"
	Identity = "identity"
)

// turns are those of goroutines that compress or decompress, as each has up to a megabyte of memory then.
var turns = make(chan struct{}, runtime.GOMAXPROCS(0))

var compressors = sync.Pool{New: func() any {
	to, _ := gzip.NewWriterLevel(io.Discard, gzip.BestSpeed)
	return to
}}

// Compress answers some bytes in gzip.
func Compress(content []byte) []byte {
	turns <- struct{}{}
	defer func() { <-turns }()
	var out bytes.Buffer
	to := compressors.Get().(*gzip.Writer)
	defer compressors.Put(to)
	to.Reset(&out)
	to.Write(content)
	to.Close()
	return out.Bytes()
}

// Decompress answers what is in gzip, up to one byte more than the most.
func Decompress(content []byte, most int64) ([]byte, error) {
	turns <- struct{}{}
	defer func() { <-turns }()
	it, err := gzip.NewReader(bytes.NewReader(content))
	if err != nil {
		return nil, err
	}
	return io.ReadAll(io.LimitReader(it, most+1))
}

// IsCompressed answers whether a message is in gzip already. No message of protobuf begins so: the byte would be
// a tag of a wire type that there is not.
func IsCompressed(message []byte) bool { return bytes.HasPrefix(message, []byte{0x1f, 0x8b}) }
