// Package pathd is a client of a pathd server: sessions over TCP or TLS, by the frames of
// docs/PROTOCOL.md. The messages are those that protoc generates from docs/segments.proto, in the
// package segmentspb.
//
// A Client has sessions with one server, which any number of goroutines share: requests are sent
// without waiting for the replies between them. It connects when it has to, and again where a session
// has ended. Servers sends the same commands to several servers.
//
//	client := pathd.NewClient("127.0.0.1:30252", pathd.ClientOptions{})
//	defer client.Close()
//	source, err := pathd.ParseIsdAs("1-ff00:0:110")
//	..
//	found, err := client.Lookup(ctx, source, destination)
//
// A lookup finds 64 segments at most; Client.List gives all of a type, in pages.
//
// # Errors
//
// A request that the server refused is a Code. A call without a reply is a *SessionError, which says
// why there is none and whether the request may have been carried out; or it is the error of its
// context. errors.Is and errors.As find both.
//
// # Moments
//
// Moments are half seconds since 1970 in the frames, and time.Time in this package; Moment has both.
package pathd
