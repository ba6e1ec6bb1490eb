#!/usr/bin/env bash
# Tries the tunnel and the proxies of docs/NETWORK.md, as the page has them, between two network
# namespaces: a client looks up through each, one with no certificate and one of another authority
# are turned away, and so are those who are too many. The keys are for their owner alone, and the logs
# of the proxies name who connected. It needs root and Debian's iproute2, nftables,
# wireguard-tools, haproxy, stunnel4, openssl and python3-protobuf; where the kernel has no WireGuard,
# wireguard-go. It is no part of the gate.
#
#     tools/pathd-tools network [PROGRAM]
#
# PROGRAM is crates/pathd/out/pathd if left out, which `rt run` builds.
source "$(dirname "${BASH_SOURCE[0]}")/common.sh"
begin "${1:-}" root ip nft wg haproxy stunnel openssl python3-protobuf
server=pathd-server-$$ client=pathd-client-$$
started=()
faults=0

finish() {
  end
  ip netns del "$server" 2>"$work/log" || true
  ip netns del "$client" 2>"$work/log" || true
  rm -rf "$work"
}
trap finish EXIT

end() { # ends the programs that were started
  [ ${#started[@]} = 0 ] || kill "${started[@]}" 2>"$work/log" || true
  wait
  started=()
}

start() { # NAMESPACE WORDS..: a program that goes on
  ip netns exec "$1" "${@:2}" >>"$work/said" 2>&1 &
  started+=($!)
}

block() { # the block of the page whose first line is this, with files in the folder of this try
  awk -v first="# $1" '$0 == first {on = 1} /^```/ {on = 0} on' "$top/docs/NETWORK.md" |
    sed "s,/etc/pathd/,$work/,g"
}

sees() { # what is wanted (found, refused), an address, and what it is of
  local said=refused
  (cd "$top/clients/python" && ip netns exec "$client" /usr/bin/python3 -B -m pathd_client --attempts 1 \
    --connect-timeout 3 --timeout 5 --connect "$2" lookup 1-ff00:0:110 1-ff00:0:111) >"$work/found" 2>&1 &&
    grep -q "^down 8adcea68" "$work/found" && said=found
  [ "$said" = "$1" ] && echo "ok: $3: $said" || { echo "$3: $said" >&2; cat "$work/found" >&2; faults=$((faults + 1)); }
}

probes() { # how many of ten connections at one time are answered, as wanted; and a half-close
  ip netns exec "$client" /usr/bin/python3 -B - "$1" "$2" <<'PYTHON' || faults=$((faults + 1))
import socket, sys
wanted, port = int(sys.argv[1]), int(sys.argv[2])
probe, reply = bytes.fromhex("0000000102"), bytes.fromhex("00000002ff41")
def connected():
    connection = socket.create_connection(("127.0.0.1", port), 5)
    connection.settimeout(5)
    return connection
def answer(connection):
    try:
        connection.sendall(probe)
        return connection.recv(99)
    except OSError:
        return b""
held = [connected() for _ in range(10)]
answered = [answer(it) for it in held].count(reply)
for it in held:
    it.close()
import time
time.sleep(1)
half = connected()
half.sendall(3 * probe)
half.shutdown(socket.SHUT_WR)
got = b""
while piece := half.recv(99):
    got += piece
print(f"{'ok' if answered == wanted else 'wrong'}: {answered} of 10 connections; {len(got) // 6} replies after a half-close")
sys.exit(answered != wanted or got != 3 * reply)
PYTHON
}

logged() { # a pattern that a file of a proxy's log has to have, and what it is of
  for _ in $(seq 50); do
    grep -q "$1" "$2" && { echo "ok: the log of $3"; return; }
    sleep 0.1
  done
  { echo "the log of $3 has no $1:"; tail -20 "$2"; } >&2
  faults=$((faults + 1))
}

serve() { # a server at an address, with the segments of the Python client
  "$program" format "$work/store" --checkpoint 64 --journal 516 >"$work/log"
  start "$server" "$program" run "$work/store" --listen "$1" --cores 1-ff00:0:110
  for _ in $(seq 100); do
    (cd "$top/clients/python" && ip netns exec "$server" /usr/bin/python3 -B -m pathd_client --attempts 1 \
      --connect "$1" register segments.txt) >"$work/log" 2>&1 && return
    sleep 0.1
  done
  echo "the server doesn't answer" >&2
  exit 1
}

ip netns add "$server"
ip netns add "$client"
ip link add peer netns "$server" type veth peer name peer netns "$client"
ip -n "$server" addr add 192.0.2.1/24 dev peer
ip -n "$client" addr add 192.0.2.2/24 dev peer
for name in "$server" "$client"; do
  ip -n "$name" link set lo up
  ip -n "$name" link set peer up
done

# The block of certificates, in which nothing is to be replaced; and an authority of strangers.
cd "$work"
awk '/^## Certificates/ {found = 1} found && /^```/ {fences++; next} fences == 1' "$top/docs/NETWORK.md" >certificates
bash -eu certificates >log 2>&1
[ -z "$(find . -name '*.key' -perm /077 -o -name 'client.pem' -perm /077 -o -name 'server.pem' -perm /077)" ] ||
  { echo "a key may be read by others" >&2; faults=$((faults + 1)); }
openssl req -x509 -newkey ec -pkeyopt ec_paramgen_curve:P-256 -nodes -subj /CN=client -keyout stranger.key -out stranger.crt 2>log
cat stranger.crt stranger.key >stranger.pem

# The system's log, as far as haproxy uses it.
cat >system_log.py <<'PYTHON'
import os
import socket
os.umask(0)
with socket.socket(socket.AF_UNIX, socket.SOCK_DGRAM) as log, open("haproxy.log", "ab", 0) as kept:
    log.bind("log.socket")
    while True:
        kept.write(log.recv(9999) + b"\n")
PYTHON

serve 127.0.0.1:30252
haproxies="/etc/haproxy/haproxy.cfg on the"
block "$haproxies server" | sed "s,/dev/log,$work/log.socket," >server.cfg
chmod 711 .
start "$server" /usr/bin/python3 -B system_log.py
until [ -e log.socket ]; do sleep 0.1; done
block "$haproxies client" >client.cfg
sed 's/client.pem/stranger.pem/; s/127.0.0.1:30252/127.0.0.1:30253/' client.cfg >stranger.cfg
sed 's/ crt [^ ]*//; s/127.0.0.1:30252/127.0.0.1:30254/' client.cfg >none.cfg
sed 's/pathd.example/other.example/; s/127.0.0.1:30252/127.0.0.1:30255/' client.cfg >other.cfg
start "$server" haproxy -db -f server.cfg
for name in client stranger none other; do start "$client" haproxy -db -f $name.cfg; done
sleep 2
sees found 127.0.0.1:30252 "haproxy, a certificate"
sees refused 127.0.0.1:30253 "haproxy, a certificate of another authority"
sees refused 127.0.0.1:30254 "haproxy, no certificate"
sees refused 127.0.0.1:30255 "haproxy, a server of another name"
sees refused 192.0.2.1:30252 "past haproxy"
probes 8 30252
logged '192\.0\.2\.2:[0-9]* "client" ' haproxy.log haproxy
end

serve 127.0.0.1:30252
stunnels="/etc/stunnel/pathd.conf on the"
block "$stunnels server" >server.conf
block "$stunnels client" >client.conf
sed 's/client.pem/stranger.pem/; s/127.0.0.1:30252/127.0.0.1:30253/' client.conf >stranger.conf
sed '/^cert/d; s/127.0.0.1:30252/127.0.0.1:30254/' client.conf >none.conf
sed 's/pathd.example/other.example/; s/127.0.0.1:30252/127.0.0.1:30255/' client.conf >other.conf
start "$server" stunnel server.conf
for name in client stranger none other; do start "$client" stunnel $name.conf; done
sleep 2
sees found 127.0.0.1:30252 "stunnel, a certificate"
sees refused 127.0.0.1:30253 "stunnel, a certificate of another authority"
sees refused 127.0.0.1:30254 "stunnel, no certificate"
sees refused 127.0.0.1:30255 "stunnel, a server of another name"
logged 'accepted connection from 192\.0\.2\.2:' said stunnel
logged 'Certificate accepted at depth=0: CN=client' said "stunnel's certificates"
probes 10 30252
sed "s/30252/30262/" "$top/deploy/pathd.nft" >proxy.nft
ip netns exec "$server" nft -f proxy.nft
probes 8 30252
ip netns exec "$server" nft delete table inet pathd
end

umask 077
for name in SERVER CLIENT; do wg genkey | tee $name.key | wg pubkey >$name.pub; done
keys="s,PUBLIC-KEY-OF-SERVER,$(cat SERVER.pub),; s,PUBLIC-KEY-OF-CLIENT,$(cat CLIENT.pub),
s,KEY-OF-SERVER,$(cat SERVER.key),; s,KEY-OF-CLIENT,$(cat CLIENT.key),"
tunnels="/etc/wireguard/wg-pathd.conf on the"
block "$tunnels server" | sed "$keys" >wg-s.conf
block "$tunnels client" | sed "$keys" >wg-c.conf
ip netns exec "$server" wg-quick up ./wg-s.conf >log 2>&1 || { cat log >&2; exit 1; }
ip netns exec "$client" wg-quick up ./wg-c.conf >log 2>&1 || { cat log >&2; exit 1; }
serve 10.30.0.1:30252
sees found 10.30.0.1:30252 "WireGuard, a key"
sees refused 192.0.2.1:30252 "past WireGuard"
ip netns exec "$server" nft -f "$top/deploy/pathd.nft"
sees refused 10.30.0.1:30252 "WireGuard, a network that the firewall doesn't let in"
sed 's,192.0.2.0/24,10.30.0.0/24,' "$top/deploy/pathd.nft" >tunnel.nft
ip netns exec "$server" nft -f tunnel.nft
sees found 10.30.0.1:30252 "WireGuard, a network that the firewall lets in"
ip -n "$client" addr add 10.30.0.3/32 dev wg-c
ip -n "$client" route change 10.30.0.1/32 dev wg-c src 10.30.0.3 2>log || ip -n "$client" route add 10.30.0.1/32 dev wg-c src 10.30.0.3
sees refused 10.30.0.1:30252 "WireGuard, an address that is not the key's"
ip netns exec "$client" wg-quick down ./wg-c.conf >log 2>&1 || true
ip netns exec "$server" wg-quick down ./wg-s.conf >log 2>&1 || true
end

echo "$faults faults"
[ "$faults" = 0 ]
