#!/usr/bin/env bash
# Prints the configuration of stunnel for one machine, of a list of machines on standard input, a line `ID ADDRESS` for
# each:
#
#     configuration.sh 1 < machines              for the machine of node 1: its tunnels, the others', and clients'
#     configuration.sh 1 machines < machines     the same without the clients'
#     configuration.sh 1 clients < machines      the clients' alone: for a second process beside the one above
#     configuration.sh client NAME < machines    for the machine of client NAME
#
# On each machine port 7000 + ID of loopback leads to node ID: there the node listens itself, and elsewhere a tunnel
# does; so an ID is at most 58535. Over the network machines talk to each other at port 7443, and clients come in at
# 7444. These come out at port CLIENT_PORTS (7000) + ID: with 7500 that is one at which the node listens for clients
# alone, `--listen-clients`. Certificates are looked for in FOLDER (/etc/stunnel/ccnode), and stunnel runs as
# TUNNEL_USER (stunnel4).
set -eu
folder=${FOLDER:-/etc/stunnel/ccnode}
user=${TUNNEL_USER:-stunnel4}
machine_port=7443
client_port=7444
client_ports=${CLIENT_PORTS:-7000}
machines=$(sed -e 's/#.*//' -e '/^[[:space:]]*$/d')

address_of() {
    local address
    address=$(awk -v id="$1" '$1 == id { print $2 }' <<< "$machines")
    echo "${address:?no machine has node $1}"
}

others_of() {
    awk -v id="$1" '$1 != id { print $1 }' <<< "$machines"
}

# What all tunnels of a machine have in common. Whoever says nothing is let go after ten seconds, and each connection
# shows its certificate anew.
common_part() {
    cat << PART
foreground = yes
pid =
setuid = $user
setgid = $user
debug = info
syslog = no
sslVersionMin = TLSv1.3
CAfile = $folder/ca.pem
CRLfile = $folder/crl.pem
cert = $folder/$1.pem
key = $folder/$1.key
verifyChain = yes
sessionResume = no
TIMEOUTbusy = 10
PART
}

# From this machine's loopback to a node elsewhere, at an address and a port: its machine has to show its own name.
tunnel_to() {
    cat << PART

[to-$1]
client = yes
accept = 127.0.0.1:$((7000 + $1))
connect = $2:$3
checkHost = machine-$1
PART
}

tunnels_to() {
    local other address
    for other in $1; do
        address=$(address_of "$other")
        tunnel_to "$other" "$address" "$2"
    done
}

# From the network at an address and a port to this machine's node, at a port of loopback.
tunnel_from() {
    cat << PART

[$1]
accept = $2:$3
connect = 127.0.0.1:$4
PART
}

# The other machines have to show the name of one of them; who comes as a client shows any.
machine() {
    local address others
    address=$(address_of "$1")
    others=$(others_of "$1")
    common_part "machine-$1"
    if [ "$2" != clients ] && [ -n "$others" ]; then
        tunnels_to "$others" "$machine_port"
        tunnel_from machines "$address" "$machine_port" "$((7000 + $1))"
        # One name a word.
        # shellcheck disable=SC2086
        printf 'checkHost = machine-%s\n' $others
    fi
    if [ "$2" != machines ]; then
        tunnel_from clients "$address" "$client_port" "$((client_ports + $1))"
    fi
}

client() {
    common_part "client-$1"
    tunnels_to "$(others_of 0)" "$client_port"
}

usage() {
    sed -n '2,/^set/s/^# \{0,1\}//p' "$0" >&2
    exit 2
}

case ${1:-}:${2:-} in
    client:?*) client "$2" ;;
    [1-9]*: | [1-9]*:machines | [1-9]*:clients) machine "$1" "${2:-}" ;;
    *) usage ;;
esac
