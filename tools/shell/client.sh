#!/usr/bin/env bash
# Runs the client of clients/python against the built program, and compares what it prints with
# expected.txt there: with `pathd once`, and over TCP with `pathd run`, pipelined and waiting for
# each reply, each without a key and with one. With a key the last segment is refused, since it is
# signed with another one. The commands of `python -m pathd_client` are those of commands.txt there,
# which has what each prints. Then a server is killed (-9) after a registration was acknowledged,
# started again on the same file, and asked for the segment. The programs of the client's page are
# carried out. Last the client's own tests are run, with sessions of the program among them. It needs
# Debian's python3-protobuf, uses the loopback alone, and is no part of the gate.
#
#     tools/pathd-tools client [PROGRAM]
#
# PROGRAM is crates/pathd/out/pathd if left out, which `rt run` builds.
source "$(dirname "${BASH_SOURCE[0]}")/common.sh"
begin "${1:-}" python3-protobuf
server=
trap '[ -z "$server" ] || kill -9 "$server" 2>/dev/null; rm -rf "$work"' EXIT
cp -r "$top"/clients/python/{demo.py,restart.py,pathd_client} "$work"
cores=1-ff00:0:110,1-ff00:0:120,2-64512
key=000102030405060708
# The segments of a server have to be valid by the machine's clock: these are of the year 2096.
made=4000000000
expiry=$((2 * made + 675 * 64))

# What is printed of segments that were made at the default time, or in 2096; and with the key.
cp "$top/clients/python/expected.txt" "$work/wanted"
sed "s/^purge at .*/purge at $expiry/" "$work/wanted" >"$work/wanted_later"
for text in wanted wanted_later; do
  sed '$s/.*/  refused: a signature is not good/' "$work/$text" >"$work/${text}_key"
done

sessions=0
differences=0

compare() { # a text with what is printed by these options
  local text=$1
  shift
  sessions=$((sessions + 1))
  /usr/bin/python3 -B "$work/demo.py" "$@" >"$work/out" && diff -u "$work/$text" "$work/out" || differences=$((differences + 1))
}

start() { # a server of a file, with these options; sets `address`
  : >"$work/ready"
  : >"$work/notices"
  "$program" run "$work/store" --listen 127.0.0.1:0 --cores "$cores" --lists "$@" >"$work/ready" 2>"$work/notices" &
  server=$!
  for _ in $(seq 200); do
    grep -qx ready "$work/ready" && grep -q "^pathd: serves " "$work/notices" && break
    sleep 0.05
  done
  address=$(sed -n 's/^pathd: serves .* at \(127\.0\.0\.1:[0-9]*\):.*/\1/p' "$work/notices")
  [ -n "$address" ] || { echo "the server doesn't listen" >&2; cat "$work/notices" >&2; exit 2; }
}

new_store() {
  "$program" format "$work/store" --checkpoint 64 --journal 516 >/dev/null || exit 2
}

compare wanted "$program"
compare wanted_key --key "$key" "$program"
for how in "" --wait; do
  new_store
  start --sessions 1
  compare wanted_later --made "$made" $how --connect "$address"
  wait "$server"
  new_store
  start --sessions 1 --key "$key"
  compare wanted_later_key --made "$made" --key "$key" $how --connect "$address"
  wait "$server"
done

# The commands, each in a session of its own.
new_store
start
cp "$top/clients/python/segments.txt" "$work"
grep '^\$ ' "$top/clients/python/commands.txt" | while read -r _ words; do
  echo "\$ $words"
  # shellcheck disable=SC2086 # the words of a line are split
  (cd "$work" && /usr/bin/python3 -B -m pathd_client --connect "$address" $words) || true
done >"$work/out"
diff -u "$top/clients/python/commands.txt" "$work/out" || differences=$((differences + 1))
sessions=$((sessions + $(grep -c '^\$ ' "$top/clients/python/commands.txt")))
# Those on the page are among them, with what they print.
sed -n '/^\$ .*-m pathd_client /,+1p' "$top/clients/python/README.md" | sed 's,/usr/bin/python3 -m pathd_client ,,' >"$work/shown"
grep -vFxf "$top/clients/python/commands.txt" "$work/shown" && differences=$((differences + 1))
kill "$server"
wait "$server" 2>/dev/null || true

# A server that is killed keeps what it has acknowledged.
new_store
start
/usr/bin/python3 -B "$work/restart.py" register "$address" "$made" || differences=$((differences + 1))
kill -9 "$server"
wait "$server" 2>/dev/null || true
start
/usr/bin/python3 -B "$work/restart.py" lookup "$address" || differences=$((differences + 1))
sessions=$((sessions + 2))
kill "$server"
wait "$server" 2>/dev/null || true
server=
echo "$sessions sessions, $differences differ"

# The programs of the client's page.
"$top/tools/pathd-tools" examples --program "$program" "$top/clients/python/README.md" || differences=$((differences + 1))

# Types, where Debian's mypy is there.
if command -v mypy >/dev/null; then
  (cd "$top/clients/python" && mypy --cache-dir=/dev/null --python-executable /usr/bin/python3 pathd_client tests demo.py restart.py) ||
    differences=$((differences + 1))
else
  echo "left out: the types of clients/python, as there is no mypy" >&2
fi

export PATHD=$program PYTHONDONTWRITEBYTECODE=1
(cd "$top/clients/python" && /usr/bin/python3 -m unittest --quiet) || differences=$((differences + 1))
[ "$differences" = 0 ]
