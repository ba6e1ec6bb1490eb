#!/usr/bin/env bash
# Runs the commands of the built program over a block device: a loop device of as many sectors as a
# store of C = 2 and J = 516 takes. It holds what a file would; a store that is too large for it is
# refused and leaves it as it is. A device that is read-only is refused before it is looked at. Then
# over one that loses what is written to it, as its own file lies in a folder without room: `format`
# is refused, and `show` finds no store, though the kernel still gives the lost pages to reads. It
# needs to be run as root, and is no part of the gate.
#
#     tools/pathd-tools block-device [PROGRAM]
#
# PROGRAM is crates/pathd/out/pathd if left out, which `rt run` builds.
source "$(dirname "${BASH_SOURCE[0]}")/common.sh"
begin "${1:-}" root losetup
device=
end() {
  [ -z "$device" ] || losetup -d "$device"
  mountpoint -q "$work/small" && umount "$work/small"
  rm -rf "$work"
}
trap end EXIT

runs=0
differences=0

ends() { # the wanted status, the wanted lines of standard output and error but those that begin with `pathd: `, and the words of a command
  local wanted=$1 lines=$2 status=0
  shift 2
  "$program" "$@" >"$work/out" 2>&1 || status=$?
  runs=$((runs + 1))
  if [ "$status" != "$wanted" ] || [ "$(grep -v '^pathd: ' "$work/out")" != "$lines" ]; then
    echo "$*: status $status, $(cat "$work/out")"
    differences=$((differences + 1))
  fi
}

says() { # the pattern of what the first line of the last run says after `pathd: `
  if ! grep -q "^pathd: $1$" "$work/out"; then
    echo "not $1: $(cat "$work/out")"
    differences=$((differences + 1))
  fi
}

holds() { # the bytes of a file
  cmp "$1" "$device" || differences=$((differences + 1))
}

truncate -s $((1039 * 512)) "$work/disk" || exit 2
device=$(losetup -f --show "$work/disk") || exit 2
"$program" format "$work/store" --checkpoint 2 --journal 516 >/dev/null || exit 2
ends 1 "error: format 2" format "$device" --checkpoint 3 --journal 516
ends 1 "error: open 1" show "$device"
holds "$work/disk"
ends 0 "formatted 1039 sectors" format "$device" --checkpoint 2 --journal 516
holds "$work/store"
ends 0 "place 0" show "$device"
ends 0 "version 2" upgrade "$device"
"$program" show "$work/store" --layout >"$work/layout" || exit 2
ends 0 "$(cat "$work/layout")" show "$device" --layout
holds "$work/store"
exec 9<"$device"
flock -x 9
ends 1 "error: device 1" show "$device"
ends 1 "error: device 1" format "$device" --checkpoint 2 --journal 516
holds "$work/store"
exec 9<&-
losetup -d "$device"

device=$(losetup -r -f --show "$work/disk") || exit 2
ends 1 "error: device 1" format "$device" --checkpoint 2 --journal 516 --force
holds "$work/store"
losetup -d "$device"
truncate -s 0 "$work/disk"
truncate -s $((1039 * 512)) "$work/disk"
device=$(losetup -r -f --show "$work/disk") || exit 2
ends 1 "error: device 1" copy "$work/store" "$device"
holds "$work/disk"
losetup -d "$device"

# A file of 300 MiB is announced, and a block device, over which no zeros are written, is not.
truncate -s 300M "$work/disk"
device=$(losetup -f --show "$work/disk") || exit 2
ends 0 "formatted 602003 sectors" format "$device" --checkpoint 300000 --journal 1000 --reserve
if grep -q zeros "$work/out"; then says "no zeros"; fi
losetup -d "$device"

# A folder of 64 KiB with a file of 1,040 sectors, of which none has room once the folder is full. As long as the device is open
# the kernel holds its pages, also those that it could not write.
mkdir "$work/small"
mount -t tmpfs -o size=64k tmpfs "$work/small" || exit 2
truncate -s $((1040 * 512)) "$work/small/disk"
dd if=/dev/zero of="$work/small/full" bs=4096 status=none 2>/dev/null || true
device=$(losetup -f --show "$work/small/disk") || exit 2
exec 9<"$device"
ends 1 "error: format 3" format "$device" --checkpoint 2 --journal 516
says "cannot format $device: the device failed: a [a-z]* of the file failed: .* (os error [0-9]*)"
[ "$(head -c 8 "$device")" = SCPATHDB ] || echo "this kernel holds no lost page, so the last run shows nothing"
ends 1 "error: open 1" show "$device"
exec 9<&-

echo "$runs runs, $differences differ"
[ "$differences" = 0 ]
