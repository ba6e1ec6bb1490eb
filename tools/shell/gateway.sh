#!/usr/bin/env bash
# Builds pathd-gateway, and runs its tests: those of its packages, and those that try the built
# program from outside, before a pathd that they imitate and before the built one. It needs the
# packages of Debian that `tools/pathd-tools need` lists, uses the loopback alone, and is no part of
# the gate. What is generated and built is removed at the end; Go keeps its own cache of what it
# compiled, which makes the first run minutes longer than the others.
#
#     tools/pathd-tools gateway [PROGRAM]
#
# PROGRAM is crates/pathd/out/pathd if left out, which `rt run` builds.
source "$(dirname "${BASH_SOURCE[0]}")/common.sh"
begin "${1:-}" protoc go protoc-gen-go protoc-gen-go-grpc golang-google-protobuf-dev \
  golang-github-golang-protobuf-1-5-dev golang-google-grpc-dev golang-golang-x-net-dev libprotobuf-dev openssl
source "$top/tools/shell/modules.sh"

unformatted=$(gofmt -l "$top/gateway")
[ -z "$unformatted" ] || { echo "gofmt would change: $unformatted" >&2; exit 1; }
"$top/gateway/build" "$work/pathd-gateway"

# The page, the man page and the completions have the options of the program's help.
"$work/pathd-gateway" --help | sed -n 's/^  \(--[a-z-]*\).*/\1/p' | sort >"$work/options"
options() { grep -oE -- '--[a-z][a-z-]*' | sort -u | comm -13 - "$work/options"; }
for page in docs/GATEWAY.md deploy/pathd-gateway.bash deploy/pathd-gateway.zsh; do
  lacks=$(options <"$top/$page" | tr '\n' ' ')
  [ -z "$lacks" ] || { echo "$page lacks $lacks" >&2; exit 1; }
done
lacks=$(sed 's/\\-/-/g' "$top/deploy/pathd-gateway.1" | options | tr '\n' ' ')
[ -z "$lacks" ] || { echo "deploy/pathd-gateway.1 lacks $lacks" >&2; exit 1; }

# systemd, where it is there, finds nothing wrong with the unit as it is installed.
if command -v systemd-analyze >/dev/null; then
  make --silent -C "$top" install-gateway DESTDIR="$work/root" PREFIX=/usr GATEWAY="$work/pathd-gateway"
  unit=$work/pathd-gateway.service
  sed "s|^ExecStart=/usr/bin/|ExecStart=$work/|" "$work/root/usr/lib/systemd/system/pathd-gateway.service" >"$unit"
  found=$(systemd-analyze verify --man=no "$unit" 2>&1) && [ -z "$found" ] || { echo "the unit: $found" >&2; exit 1; }
fi

"$top/gateway/build" --tree "$work/go"
# The flags are those of gateway/build, so that Go's cache has the packages.
export GO111MODULE=off GOFLAGS=-trimpath CGO_ENABLED=0 GOPATH="$work/go:/usr/share/gocode"
export GATEWAY=$work/pathd-gateway PATHD=$program CODES=$top/docs/codes.csv TOP=$top
cd "$work/go/src/pathd/gateway"
go vet ./...
go test -p "${GO_JOBS:-2}" -count=1 ./...

# As a module, which has the client in Go beside itself.
replace_modules . google.golang.org/grpc google.golang.org/protobuf google.golang.org/genproto \
  github.com/golang/protobuf github.com/google/go-cmp golang.org/x/net golang.org/x/sys golang.org/x/text
go mod edit -replace="pathd=$work/go/src/pathd" "$work/replaced.mod"
GO111MODULE=on GOPROXY=off GOFLAGS=-mod=mod go list -modfile="$work/replaced.mod" -deps ./... >/dev/null
