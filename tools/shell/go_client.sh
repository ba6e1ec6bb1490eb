#!/usr/bin/env bash
# Runs the tests of the client of clients/go, and those of its path database with Go's detector of
# races: with a server that the tests imitate, and with the built program. It also carries out the
# programs of their pages, compares the generated package with docs/segments.proto, and builds the
# client as a module. It needs Debian's golang-go, golang-google-protobuf-dev, protoc-gen-go,
# protobuf-compiler and gcc, uses the loopback alone, and is no part of the gate. What is built is
# removed at the end; Go keeps its own cache of what it compiled. Where Debian's
# golang-github-mattn-go-sqlite3-dev is there, the measurements of the path database beside SQLite are
# tried, too.
#
#     tools/pathd-tools go-client [PROGRAM]
#
# PROGRAM is crates/pathd/out/pathd if left out, which `rt run` builds.
source "$(dirname "${BASH_SOURCE[0]}")/common.sh"
begin "${1:-}" protoc go protoc-gen-go golang-google-protobuf-dev gcc
source "$top/tools/shell/modules.sh"
mkdir "$work/src" "$work/generated"
cp -r "$top/clients/go" "$work/src/pathd"

# The generated package is that of segments.proto; the versions of its makers are not compared.
protoc --proto_path="$top/docs" --go_opt=module=pathd --go_out="$work/generated" segments.proto
diff -u -I '^//.*protoc' "$work/generated/segmentspb" "$top/clients/go/segmentspb"
unformatted=$(gofmt -l "$top/clients")
[ -z "$unformatted" ] || { echo "gofmt would change: $unformatted" >&2; exit 1; }

cd "$work/src/pathd"
export GO111MODULE=off GOFLAGS= GOPATH="$work:/usr/share/gocode" PATHD=$program CODES=$top/docs/codes.csv
go vet ./...
go test -count=1 .
go test -race -count=1 ./pathdb
"$top/tools/pathd-tools" examples --program "$program" "$top/clients/go/README.md" "$top/clients/go/pathdb/README.md"
if "$top/tools/pathd-tools" need golang-github-mattn-go-sqlite3-dev 2>/dev/null; then
  go vet -tags sqlite ./pathdb
  go test -tags sqlite -count=1 -run BesideSQLite ./pathdb
else
  echo "skipped: the measurements beside SQLite, for want of golang-github-mattn-go-sqlite3-dev"
fi

# As a module, with Debian's protobuf in place of the one that would be fetched.
replace_modules . google.golang.org/protobuf github.com/golang/protobuf github.com/google/go-cmp
GO111MODULE=on GOPROXY=off GOFLAGS=-mod=mod go build -modfile="$work/replaced.mod" ./...
