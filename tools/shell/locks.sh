#!/usr/bin/env bash
# Runs the commands of the built program over a file on which another process holds the system's
# lock. `format`, `show`, `upgrade` and `run` are refused beside any lock, `show --layout` and
# `status` beside an exclusive one, and a command that is refused leaves the file as it is and names
# the process. Then two `show` at once: while the first one waits in its sync, the second is refused,
# and the first goes on. It needs Python and Debian's strace, and is no part of the gate.
#
#     tools/pathd-tools locks [PROGRAM]
#
# PROGRAM is crates/pathd/out/pathd if left out, which `rt run` builds.
source "$(dirname "${BASH_SOURCE[0]}")/common.sh"
begin "${1:-}" strace python3
store=$work/store

runs=0
differences=0

ends() { # the wanted status, the wanted last line of standard error, and the words of a command
  local wanted=$1 line=$2 status=0
  shift 2
  "$program" "$@" >"$work/out" 2>"$work/err" || status=$?
  runs=$((runs + 1))
  if [ "$status" != "$wanted" ] || [ "$(tail -n 1 "$work/err")" != "$line" ] || ! cmp -s "$work/before" "$store"; then
    echo "$holder, $*: status $status, $(cat "$work/err"), $(cmp "$work/before" "$store")"
    differences=$((differences + 1))
  fi
}

refused() {
  ends 1 "error: device 1" "$@"
}

named() { # that the line of the last run names the process that has the lock
  runs=$((runs + 1))
  if ! grep -q " (process $LOCK_PID, " "$work/err"; then
    echo "$holder: process $LOCK_PID is not named, $(cat "$work/err")"
    differences=$((differences + 1))
  fi
}

hold() { # has another process lock the file, by LOCK_EX or LOCK_SH
  holder=$1
  coproc LOCK { exec /usr/bin/python3 -c '
import fcntl, sys
file = open(sys.argv[1], "rb")
fcntl.flock(file, getattr(fcntl, sys.argv[2]))
print("held", flush=True)
sys.stdin.read()' "$store" "$1"; }
  read -r _ <&"${LOCK[0]}"
}

release() {
  local pid=$LOCK_PID
  eval "exec ${LOCK[1]}>&-"
  wait "$pid"
}

holder="no lock"
"$program" format "$store" --checkpoint 2 --journal 516 >/dev/null || exit 2
cp "$store" "$work/before"
ends 0 "" show "$store"
cp "$work/out" "$work/shown"

for lock in LOCK_EX LOCK_SH; do
  hold "$lock"
  refused format "$store" --checkpoint 2 --journal 516
  named
  refused show "$store"
  refused upgrade "$store"
  refused run "$store" --listen 127.0.0.1:0
  for words in "show $store --layout" "status $store"; do
    if [ "$lock" = LOCK_EX ]; then refused $words; else ends 0 "" $words; fi
  done
  release
done

holder="another show"
strace -o "$work/trace" -e inject=fdatasync:delay_enter=3000000:when=1 "$program" show "$store" >"$work/first" 2>&1 &
first=$!
for _ in $(seq 100); do # until the first one has its lock
  grep -q ":$(stat -c %i "$store") " /proc/locks && break
  sleep 0.02
done
refused show "$store"
ends 0 "" --help
wait "$first" || true
holder="a server"
: >"$work/ready"
"$program" run "$store" --listen 127.0.0.1:0 --quiet >"$work/ready" &
server=$!
for _ in $(seq 200); do # until it listens
  grep -qx ready "$work/ready" && break
  sleep 0.02
done
refused show "$store"
refused run "$store" --listen 127.0.0.1:0
kill "$server"
wait "$server" 2>/dev/null || true
cmp "$work/first" "$work/shown" || differences=$((differences + 1))
holder="no lock"
ends 0 "" show "$store"

echo "$runs runs, $differences differ"
[ "$differences" = 0 ]
