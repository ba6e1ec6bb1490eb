#!/usr/bin/env bash
# Runs the built program with calls of the system on the file of a store failing or interrupted. A
# transfer that a signal interrupts is made again, and a look at the path that fails before the file
# is opened is passed over: the command ends as it does without it. Any other failure ends the
# command with its line of standard error. It needs Debian's strace, which makes the calls fail, and
# is no part of the gate.
#
#     tools/pathd-tools faults [PROGRAM]
#
# PROGRAM is crates/pathd/out/pathd if left out, which `rt run` builds.
source "$(dirname "${BASH_SOURCE[0]}")/common.sh"
begin "${1:-}" strace
store=$work/store

runs=0
differences=0

run_with() { # the calls that fail, as strace takes them, and the words of a command; leaves its status, out and err
  local inject=$1
  shift
  status=0
  strace -o "$work/trace" -P "$store" -P "$work" -e inject="$inject" "$program" "$@" >"$work/out" 2>"$work/err" || status=$?
  runs=$((runs + 1))
  grep -q INJECTED "$work/trace" || differs "$inject" "$*" "no call failed"
}

differs() {
  echo "$2 with $1: $3"
  differences=$((differences + 1))
}

interrupted() { # the same, where the command is to end as without a failure
  local inject=$1
  shift
  restore
  "$program" "$@" >"$work/wanted_out" 2>"$work/wanted_err"
  cp "$store" "$work/wanted_store"
  restore
  run_with "$inject" "$@"
  [ "$status" = 0 ] || differs "$inject" "$*" "status $status, $(cat "$work/err")"
  cmp -s "$work/out" "$work/wanted_out" || differs "$inject" "$*" "standard output"
  cmp -s "$store" "$work/wanted_store" || differs "$inject" "$*" "the file"
}

fails() { # the last line of standard error that is wanted, and the same
  local line=$1 inject=$2
  shift 2
  restore
  run_with "$inject" "$@"
  [ "$status" = 1 ] && [ "$(tail -n 1 "$work/err")" = "$line" ] && [ ! -s "$work/out" ] \
    || differs "$inject" "$*" "status $status, $(cat "$work/err"), prints $(cat "$work/out")"
}

restore() { # the store as it was: of version 1, so that an upgrade writes
  cp "$work/first" "$store"
}

format=(format "$store" --checkpoint 2 --journal 516)
"$program" "${format[@]}" >/dev/null || exit 2
printf '\1' | dd of="$store" bs=1 seek=$((512 + 7)) conv=notrunc status=none
cp "$store" "$work/first"

# Each second call, the first one with it.
interrupted pwrite64:error=EINTR:when=1+2 "${format[@]}"
interrupted pwrite64:error=EINTR:when=1+2 upgrade "$store"
interrupted pread64:error=EINTR:when=1+2 show "$store"
interrupted pread64:error=EINTR:when=1+2 show "$store" --layout
interrupted fdatasync:error=EINTR:when=1+2 upgrade "$store"
interrupted fsync:error=EINTR:when=1+2 "${format[@]}"
# The first ten calls, of which no two are made by the same transfer otherwise.
interrupted pwrite64:error=EINTR:when=1..10 upgrade "$store"
# The look at the path before it is opened: what opens the file, and looks at it, decides.
interrupted statx:error=EINVAL:when=1 show "$store"

fails "error: device 1" openat:error=EACCES:when=1 show "$store"
fails "error: device 1" flock:error=ENOLCK show "$store"
fails "error: device 1" flock:error=ENOLCK show "$store" --layout
fails "error: device 1" statx:error=EINVAL:when=2 show "$store"
fails "error: device 1" statx:error=EINVAL:when=3 show "$store"
fails "error: device 1" statx:error=EINVAL:when=4 show "$store"
fails "error: open 2" pread64:error=EIO:when=1 show "$store"
fails "error: open 2" pread64:retval=0:when=1 show "$store"
fails "error: open 2" pread64:error=EIO:when=1 show "$store" --layout
fails "error: open 2" fdatasync:error=EIO:when=1 show "$store"
fails "error: open 2" fdatasync:error=EIO:when=2 show "$store"
fails "error: device 1" fdatasync:error=EIO:when=3 upgrade "$store"
fails "error: device 1" pwrite64:error=ENOSPC:when=2 upgrade "$store"
fails "error: device 1" flock:error=ENOLCK "${format[@]}"
fails "error: device 1" ftruncate:error=EFBIG:when=2 "${format[@]}"
fails "error: device 1" fsync:error=EIO:when=1 "${format[@]}"
fails "error: device 1" fsync:error=EIO:when=2 "${format[@]}"
fails "error: format 3" pwrite64:error=ENOSPC:when=3 "${format[@]}"
fails "error: format 3" pwrite64:retval=0:when=3 "${format[@]}"
fails "error: format 3" fdatasync:error=EIO:when=1 "${format[@]}"

echo "$runs runs, $differences differ"
[ "$differences" = 0 ]
