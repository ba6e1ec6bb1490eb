#!/usr/bin/env bash
# Has tools/pathd-tools load make a load on a server of the built program for two seconds, each
# reply checked, over a store so small that checkpoints count meanwhile; tools/pathd-tools plot draws
# the series. It needs gcc and Python 3, uses the loopback alone, and is no part of the gate.
#
#     tools/pathd-tools short-load [PROGRAM]
#
# PROGRAM is crates/pathd/out/pathd if left out, which `rt run` builds.
source "$(dirname "${BASH_SOURCE[0]}")/common.sh"
begin "${1:-}" gcc python3
server=
trap '[ -z "$server" ] || kill -9 "$server" 2>/dev/null; rm -rf "$work"' EXIT

is_picture() { # whether a file is a picture with a figure in it
  [ -s "$1" ] && grep -q "<svg" "$1" && grep -qE "<(rect|polyline)" "$1" || { echo "no picture: $1" >&2; exit 1; }
}

"$program" format "$work/store" --checkpoint 512 --journal 516 >"$work/formatted"
"$program" run "$work/store" --listen 127.0.0.1:0 --cores 1-ff00:0:110 >"$work/ready" 2>"$work/notices" &
server=$!
for _ in $(seq 200); do
  grep -qx ready "$work/ready" && break
  sleep 0.05
done
address=$(sed -n 's/^pathd: serves .* at \(127\.0\.0\.1:[0-9]*\):.*/\1/p' "$work/notices")
[ -n "$address" ] || { echo "the server doesn't listen" >&2; cat "$work/notices" >&2; exit 2; }
"$top/tools/pathd-tools" load "$address" --sessions 4 --seconds 2 --rows 200 --mix lookup=3,register=1,fresh=1,purge=1,remove=1 --series "$work/series" --store "$work/store"
if ! grep -q "^# checkpoint " "$work/series"; then
  echo "no checkpoint counted during the load" >&2
  exit 1
fi
kill -9 "$server"
wait "$server" 2>/dev/null || true
server=
"$top/tools/pathd-tools" plot "$work/series" "$work/load.svg"
is_picture "$work/load.svg"
