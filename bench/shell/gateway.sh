#!/usr/bin/env bash
# Lookups and registrations through pathd-gateway, by 1, 8 and 64 callers, beside a server of grpc-go
# that answers by as many bytes and does nothing else. It prints medians of ROUNDS rounds (5 where
# none is given), each with the least and the greatest; a ratio is of one round. The callers, the
# servers and pathd share the machine: ratios count. Where other work has the processors, the ratio of
# processor time counts alone: that of the callers and the echo to that of the callers, the gateway
# and pathd, for a call each.
#
# It needs what `tools/pathd-tools gateway` needs. PROGRAM is crates/pathd/out/pathd if left out.
# Further targets NAME=grpc@ADDR@PID,PID are measured in the same rounds, if they serve already. A part of a
# round takes SECONDS_EACH seconds, 1 where that variable is not set.
#
#     bench/pathd-bench gateway [ROUNDS [PROGRAM [TARGET ..]]]
set -euo pipefail
root=$(cd "$(dirname "${BASH_SOURCE[0]}")/../.." && pwd)
"$root/tools/pathd-tools" need protoc go protoc-gen-go protoc-gen-go-grpc golang-google-protobuf-dev \
  golang-github-golang-protobuf-1-5-dev golang-google-grpc-dev golang-golang-x-net-dev
rounds=${1:-5}
program=$(realpath "${2:-$root/crates/pathd/out/pathd}")
shift "$(($# < 2 ? $# : 2))"
work=$(mktemp -d)
store=$(mktemp -d -p /dev/shm)
servers=()
trap 'kill "${servers[@]}" 2>/dev/null; rm -rf "$work" "$store"' EXIT

"$root/gateway/build" --tree "$work/go"
export GO111MODULE=off GOFLAGS=-trimpath CGO_ENABLED=0 GOPATH="$work/go:/usr/share/gocode"
(cd "$work/go" && go build -p "${GO_JOBS:-2}" -o "$work/" pathd/gateway/bench)
"$root/gateway/build" "$work/pathd-gateway"

started() { # a server, whose first lines have its address; sets `address`
  local out=$work/out.${#servers[@]}
  : >"$out"
  "$@" >"$out" 2>&1 &
  servers+=($!)
  for _ in $(seq 200); do
    address=$(sed -n 's/.*\(127\.0\.0\.1:[0-9]*\).*/\1/p' "$out" | head -1)
    [ -n "$address" ] && return
    sleep 0.05
  done
  echo "no server: $*" >&2
  exit 2
}

"$program" format "$store/store" --checkpoint 65536 --journal 65536 >/dev/null
started "$program" run "$store/store" --listen 127.0.0.1:0 --cores 1-ff00:0:110
started "$work/pathd-gateway" --listen 127.0.0.1:0 --pathd "$address"
gateway=$address@${servers[1]},${servers[0]}
length=${SECONDS_EACH:-1}s
for ask in lookup register; do
  size=0
  [ "$ask" = register ] || size=244
  started "$work/bench" -echo 127.0.0.1:0 -size "$size"
  echo "$ask:"
  "$work/bench" -ask "$ask" -rounds "$rounds" -length "$length" \
    "echo=grpc@$address@${servers[-1]}" "gateway=grpc@$gateway" "Connect=connect@$gateway" "$@"
done
