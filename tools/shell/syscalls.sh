#!/usr/bin/env bash
# Compares the calls that the built program makes of the system, on the file of a store, with the
# order that docs/STORE.md has, for C = 2 and J = 516: which sectors are written, and where the
# syncs are between them. Then it looks at which copies have their room on the disk. It needs Debian's strace, and is no part of the gate.
#
#     tools/pathd-tools syscalls [PROGRAM]
#
# PROGRAM is crates/pathd/out/pathd if left out, which `rt run` builds. Offsets and lengths are counted
# in sectors of 512 bytes. Reads in a row are one line. What differs is printed as diff does, the calls
# that were made with '+'.
source "$(dirname "${BASH_SOURCE[0]}")/common.sh"
begin "${1:-}" strace perl
store=$work/store
calls=openat,flock,ftruncate,fsync,fdatasync,fadvise64,pread64,pwrite64,read,write

traces=0
differences=0

calls_made() { # what was traced, as the lines below
  STORE=$store FOLDER=$work perl -ne '
    sub sectors { $_[0] % 512 ? "$_[0] bytes" : $_[0] / 512 }
    my ($store, $folder) = map quotemeta, @ENV{qw(STORE FOLDER)};
    s/^\d+ +//;
    my $line =
        /^openat\(.*"$store", (\S+), 0666\)/ || /^openat\(.*"$store", (\S+)\)/ ? "open $1" =~ s/O_CLOEXEC|O_NOCTTY//gr
      : /^flock\(\d+<$store>, (\S+)\)/ ? "lock $1"
      : /^fadvise64\(\d+<$store>, 0, 0, (\w+)\)/ ? "advise $1"
      : /^ftruncate\(\d+<$store>, (\d+)\)/ ? "length " . sectors($1)
      : /^pread64\(\d+<$store>/ ? "read"
      : /^pwrite64\(\d+<$store>, .*, (\d+), (\d+)(?:\)| <unfinished)/ ? "write " . sectors($1) . " at " . sectors($2)
      : /^(fsync|fdatasync)\(\d+<$store>(?:\)| <unfinished)/ ? $1
      : /^fsync\(\d+<$folder>\)/ ? "fsync of the folder"
      : /^write\(1</ ? "print"
      : /<$store>/ ? $_ : next;
    $line =~ s/\|+/|/g; $line =~ s/\|$//;
    print "$line\n" unless $line eq "read" && $last eq "read";
    $last = $line' "$work/trace"
}

makes() { # the words of a command; standard input has the calls that it is to make, in order
  strace -y -s 8 -o "$work/trace" -e trace=$calls "$program" "$@" >/dev/null || differences=$((differences + 1))
  traces=$((traces + 1))
  calls_made >"$work/made"
  diff -u --label drawn --label "$*" - "$work/made" || differences=$((differences + 1))
}

put() { # a sector, an offset in it, and bytes as printf takes them
  printf "$3" | dd of="$store" bs=1 seek=$(($1 * 512 + $2)) conv=notrunc status=none
}

# A new store: its file first, and then the sectors of line 1.
makes format "$store" --checkpoint 2 --journal 516 <<'LINES'
open O_RDWR|O_CREAT
lock LOCK_EX|LOCK_NB
length 0
length 1039
fsync
fsync of the folder
write 1 at 0
write 1 at 1
write 1 at 3
write 1 at 4
write 1 at 522
write 1 at 523
fdatasync
print
LINES

# A store at rest: nothing is written.
makes show "$store" <<'LINES'
open O_RDWR
lock LOCK_EX|LOCK_NB
advise POSIX_FADV_DONTNEED
fdatasync
read
fdatasync
print
LINES

makes show "$store" --layout <<'LINES'
open O_RDONLY
lock LOCK_SH|LOCK_NB
advise POSIX_FADV_DONTNEED
read
print
LINES

makes status "$store" <<'LINES'
open O_RDONLY
lock LOCK_SH|LOCK_NB
advise POSIX_FADV_DONTNEED
read
print
LINES

# A store as at line 9: the second half is open beside the first one, with epoch 2. The first half's gates are closed.
put 520 0 'PCKP\0\0\0\2\0\0\0\0\0\0\0\2'
put 522 0 '\xa7'
makes show "$store" <<'LINES'
open O_RDWR
lock LOCK_EX|LOCK_NB
advise POSIX_FADV_DONTNEED
fdatasync
read
write 2 at 3
fdatasync
print
LINES

# One whose other half is closed and has an open gate in its journal: that one is closed.
put 4 0 '\xa7'
makes show "$store" <<'LINES'
open O_RDWR
lock LOCK_EX|LOCK_NB
advise POSIX_FADV_DONTNEED
fdatasync
read
write 1 at 4
fdatasync
print
LINES

# A store of version 1: the checkpoint is laid in the first half, that half is opened, and the second one is closed.
put 520 4 '\0\0\0\1'
makes upgrade "$store" <<'LINES'
open O_RDWR
lock LOCK_EX|LOCK_NB
advise POSIX_FADV_DONTNEED
fdatasync
read
fdatasync
write 1 at 1
fdatasync
write 1 at 3
fdatasync
write 2 at 522
fdatasync
print
LINES

# One of version 2: nothing is written.
makes upgrade "$store" <<'LINES'
open O_RDWR
lock LOCK_EX|LOCK_NB
advise POSIX_FADV_DONTNEED
fdatasync
read
fdatasync
print
LINES

# A server that takes two registrations, one after the other: each group is its payload with the next gate, closed, and then its own
# gate, open; each write is synced before the next one.
serve() {
  local port
  cat >"$work/segment" <<'END'
{"type":"down","segment":"0a080880d0acf30e100112290a270a251223089082808080e07f109182808080e07f1a0e0a0c1001183f220600000000000028c00b12210a1f0a1d121b089182808080e07f1a0e0a0c0802183f220600000000000028c00b"}
END
  strace -f -y -s 8 -o "$work/trace" -e trace=$calls "$program" run "$store" --listen 127.0.0.1:0 --sessions 2 >/dev/null 2>"$work/lines" &
  until port=$(sed -n 's/.* at 127.0.0.1:\([0-9]*\): version.*/\1/p' "$work/lines") && [ -n "$port" ]; do sleep 0.1; done
  for _ in 1 2; do "$program" ask "127.0.0.1:$port" register "$work/segment" >/dev/null; done
  wait $!
  traces=$((traces + 1))
  calls_made >"$work/made"
}

"$program" format "$store" --checkpoint 2 --journal 516 --force >/dev/null
serve
diff -u --label drawn --label run - "$work/made" <<'LINES' || differences=$((differences + 1))
open O_RDWR
lock LOCK_EX|LOCK_NB
advise POSIX_FADV_DONTNEED
fdatasync
read
fdatasync
print
write 2 at 5
fdatasync
write 1 at 4
fdatasync
write 2 at 7
fdatasync
write 1 at 6
fdatasync
print
print
print
LINES

# A copy has its room where that is asked for, and where the store that is copied has its own.
has_room() { [ "$(($(stat -c '%b * 512' "$1")))" -ge "$(stat -c %s "$1")" ]; }
"$program" format "$work/sparse" --checkpoint 2 --journal 516 >/dev/null
"$program" format "$work/full" --checkpoint 2 --journal 516 --reserve >/dev/null
for copied in "sparse no" "sparse yes --reserve" "full yes" "full yes --rows 2000"; do
  read -r from wanted words <<<"$copied"
  rm -f "$work/copy"
  # shellcheck disable=SC2086 # the words are split
  "$program" copy "$work/$from" "$work/copy" $words >/dev/null
  traces=$((traces + 1))
  has=no
  if has_room "$work/copy"; then has=yes; fi
  [ "$has" = "$wanted" ] || { echo "copy of $copied: has its room: $has"; differences=$((differences + 1)); }
done

echo "$traces commands, $differences differ"
[ "$differences" = 0 ]
