#!/usr/bin/env bash
# Runs three nodes behind mutual TLS, each in a network namespace of its own: cluster.sh PROGRAM [SECONDS]. It shows
# that asks over TLS are answered, and that a client's certificate serves for nothing else; that whoever has no
# certificate, a revoked one or a client's in place of a machine's is refused, and that a node which was killed comes
# back; then it measures what TLS costs, SECONDS (5) for each row. It needs root, stunnel4, openssl, iproute2 and
# python3, touches no network but the one that it makes, and ends all that it started.
set -eu
program=$(realpath "$1")
seconds=${2:-5}
here=$(dirname "$(realpath "$0")")
work=$(mktemp -d)
prefix=ccnode-$$
pids=()
declare -A pid_of
# What comes in with a client's certificate comes out where a node takes asks alone: at this port and its ID.
export CLIENT_PORTS=7500

end() {
    local pid place
    for pid in "${pids[@]}"; do
        kill -9 "$pid" 2>> "$work/ended" || true
    done
    for place in 1 2 3 client hub; do
        ip netns del "$prefix-$place" 2>> "$work/ended" || true
    done
    rm -rf "$work"
}
trap end EXIT
trap 'exit 130' INT TERM HUP

say() {
    echo "\$ $*"
}

# Runs a command in the namespace of that place.
at() {
    local place=$1
    shift
    ip netns exec "$prefix-$place" "$@"
}

# Starts what goes on under a name, in the namespace of that place.
start() {
    local name=$1 place=$2
    shift 2
    ip netns exec "$prefix-$place" "$@" >> "$work/log-$name" 2>&1 &
    pid_of[$name]=$!
    pids+=("$!")
    disown
}

stop() {
    kill -9 "${pid_of[$1]}"
}

# A namespace that has a cable to the hub, and an address.
plug() {
    ip netns add "$prefix-$1"
    ip link add eth0 netns "$prefix-$1" type veth peer name "port-$1" netns "$prefix-hub"
    at hub ip link set "port-$1" master bridge up
    at "$1" ip address add "$2/24" dev eth0
    at "$1" ip link set lo up
    at "$1" ip link set eth0 up
}

build_network() {
    ip netns add "$prefix-hub"
    at hub ip link add bridge type bridge
    at hub ip link set bridge up
    for node in 1 2 3; do
        plug "$node" "10.77.0.$node"
        echo "$node 10.77.0.$node" >> "$work/machines"
    done
    plug client 10.77.0.9
}

# Certificates of three machines and of two clients, and one of a client of another authority.
build_certificates() {
    local order
    for order in ca 'machine 1' 'machine 2' 'machine 3' 'client good' 'client lost'; do
        # Two words.
        # shellcheck disable=SC2086
        "$here/certificates.sh" "$work/tls" $order
    done
    "$here/certificates.sh" "$work/other" ca
    "$here/certificates.sh" "$work/other" client good
    chown -R stunnel4:stunnel4 "$work/tls" "$work/other"
    chmod 711 "$work"
}

# The configuration of stunnel under a name, by these words.
configure() {
    local name=$1
    shift
    FOLDER="$work/tls" "$here/configuration.sh" "$@" < "$work/machines" > "$work/$name.conf"
}

start_tunnels() {
    local node
    for node in 1 2 3; do
        configure "stunnel-$node" "$node"
        start "stunnel-$node" "$node" stunnel4 "$work/stunnel-$node.conf"
    done
    configure good client good
    start good client stunnel4 "$work/good.conf"
}

peers() {
    local list='' node
    for node in 1 2 3; do
        [ "$node" = "$1" ] || list="$list${list:+,}$node=${2:-127.0.0.1}${2:+.$node}:700$node"
    done
    echo "$list"
}

# Node ID of the cluster behind TLS listens at loopback alone, for its peers and for clients.
start_node() {
    local words=(--listen "127.0.0.1:700$1" --listen-clients "127.0.0.1:$((CLIENT_PORTS + $1))" --peers "$(peers "$1")")
    say "ccnode run node-$1 ${words[*]} &    (machine $1)"
    start "node-$1" "$1" "$program" run "$work/node-$1" "${words[@]}"
}

format_nodes() {
    local node
    for node in 1 2 3; do
        mkdir "$work/$1-$node"
        "$program" format "$work/$1-$node" "$node" --initial 1,2,3 --beta 2/3 --share 32 --cluster blue > "$work/formatted"
    done
}

# Asks from the client's namespace, and ends the run where the answer isn't the one that is wanted.
ask() {
    local wanted=$1 answer
    shift
    say "ccnode $*    (client)"
    answer=$(at client "$program" "$@" 2> /dev/null) || true
    echo "$answer"
    # What is wanted is a pattern.
    # shellcheck disable=SC2254
    case $answer in
        $wanted) ;;
        *) echo "wanted: $wanted" >&2; exit 1 ;;
    esac
}

# What openssl heard: why it was refused, or that it wasn't in the second after both ends had shown what they had to.
told_by_server() {
    if grep -q 'alert [a-z]' "$work/handshake"; then
        grep -oE 'alert [a-z ]+:' "$work/handshake" | tr -d :
    elif grep -q '^Verify return code: 0 (ok)' "$work/handshake"; then
        echo 'let in'
    fi
}

# What the TLS server of machine 1 at a port says to a client that shows this certificate, or none.
handshake() {
    local wanted=$1 port=$2 shown=()
    [ -z "${3:-}" ] || shown=(-cert "$3.pem" -key "$3.key")
    say "openssl s_client -connect 10.77.0.1:$port ${3:+-cert ${3#"$work"/}.pem}    (client)"
    (sleep 1; echo) | at client timeout 5 openssl s_client -connect "10.77.0.1:$port" -CAfile "$work/tls/ca.pem" \
        "${shown[@]}" > "$work/handshake" 2>&1 || true
    told_by_server | tee "$work/told"
    if ! grep -q "$wanted" "$work/told"; then
        echo "wanted: $wanted" >&2
        exit 1
    fi
}

try_asks() {
    echo '-- asks over TLS'
    ask 'Stored' ask 127.0.0.1:7001 11 store over-tls
    ask '*1:1=over-tls/*' ask 127.0.0.1:7003 13 collect
    echo "-- a client's certificate serves for asks alone"
    ask 'no answer' retire 127.0.0.1:7001 2
    ask 'no answer' leave 127.0.0.1:7001
}

try_strangers() {
    echo '-- past the tunnel: a node listens at loopback alone, and a tunnel takes TLS alone'
    ask 'no answer' ask --timeout 2 10.77.0.1:7001 11 collect
    ask 'no answer' retire 10.77.0.1:7001 2
    ask 'no answer' ask --timeout 2 10.77.0.1:7444 11 collect
    echo '-- with a certificate, without one, with one of another authority'
    handshake 'let in' 7444 "$work/tls/client-good"
    handshake 'certificate required' 7444
    handshake 'unknown ca' 7444 "$work/other/client-good"
    echo "-- at the machines' port: a machine's certificate, and a client's"
    handshake 'let in' 7443 "$work/tls/machine-2"
    handshake 'alert' 7443 "$work/tls/client-good"
}

try_revocation() {
    local node
    echo '-- a certificate is revoked, and the tunnels read the list'
    handshake 'let in' 7444 "$work/tls/client-lost"
    say "certificates.sh tls revoke client-lost; kill -HUP (stunnel of each machine)"
    "$here/certificates.sh" "$work/tls" revoke client-lost
    chown -R stunnel4:stunnel4 "$work/tls"
    for node in 1 2 3; do
        kill -HUP "${pid_of[stunnel-$node]}"
    done
    sleep 1
    handshake 'certificate revoked' 7444 "$work/tls/client-lost"
    ask '*1:1=over-tls/*' ask 127.0.0.1:7002 12 collect
}

try_kills() {
    echo '-- node 3 is killed, and comes back'
    stop node-3
    ask 'Stored' ask 127.0.0.1:7001 11 store while-3-is-down
    start_node 3
    sleep 2
    ask '*1:2=while-3-is-down/*' ask 127.0.0.1:7003 13 collect
    echo '-- the tunnel of machine 2 is killed, and comes back'
    stop stunnel-2
    ask 'Stored' ask 127.0.0.1:7001 11 store while-2-is-cut-off
    start stunnel-2 2 stunnel4 "$work/stunnel-2.conf"
    sleep 2
    ask '*1:3=while-2-is-cut-off/*' ask 127.0.0.1:7002 12 collect
}

# The same nodes without tunnels, which listen to the network.
start_open_nodes() {
    local node
    format_nodes open
    for node in 1 2 3; do
        start "open-$node" "$node" "$program" run "$work/open-$node" --listen "10.77.0.$node:700$node" \
            --peers "$(peers "$node" 10.77.0)"
    done
}

# The processes of these names, with commas.
pids_of() {
    local name list=''
    for name in "$@"; do
        list="$list${list:+,}${pid_of[$name]}"
    done
    echo "$list"
}

measure() {
    echo "-- what TLS costs: operations a second, times in microseconds, $seconds s a row; processor: what nodes and"
    echo '   tunnels of the three machines take for one operation'
    start_open_nodes
    sleep 2
    echo 'network clients  kind         a s      p50      p99  processor'
    at client python3 "$here/load.py" open "$seconds" 10.77.0.1:7001,10.77.0.2:7002,10.77.0.3:7003 \
        "$(pids_of open-1 open-2 open-3)"
    at client python3 "$here/load.py" tls "$seconds" 127.0.0.1:7001,127.0.0.1:7002,127.0.0.1:7003 \
        "$(pids_of node-1 node-2 node-3 stunnel-1 stunnel-2 stunnel-3)"
}

build_network
build_certificates
format_nodes node
start_tunnels
for node in 1 2 3; do
    start_node "$node"
done
sleep 2
try_asks
try_strangers
try_revocation
try_kills
measure
echo 'who had to be let in was, and who had to be refused was'
