// Package pathdb is a path database for a control service of SCION, kept by a pathd server or by several.
// The names and the methods are those of scionproto's package pathdb and of its package query, as they
// are remembered: README.md says what is from memory, and where a Backend differs.
//
//	db := pathdb.New(pathd.NewClient("127.0.0.1:30252", pathd.ClientOptions{}))
//	defer db.Close()
//	stats, err := db.Insert(ctx, &pathdb.Meta{Type: pathdb.TypeDown, Segment: segment})
//	..
//	results, err := db.Get(ctx, &pathdb.Params{EndsAt: []pathdb.IA{leaf}})
//
// The server has to answer lists (pathd run --lists).
//
// # Errors
//
// A segment or a command that the server refused is a pathd.Code, and a call without a reply a
// *pathd.SessionError or the error of its context. With several servers a *pathd.NotAcknowledged wraps one of
// these, and so does a *CommitError, the error of a commit. A transaction that is over answers sql.ErrTxDone.
package pathdb
