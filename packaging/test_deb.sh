#!/usr/bin/env bash
# Tries a package in a clean Debian: test_deb.sh PACKAGE [ROOT]. It installs it, runs three nodes as the unit does, asks
# them, upgrades, removes and purges it, and looks at it by lintian and systemd-analyze. ROOT is a folder with a Debian
# that debootstrap made before, which is copied; else one is made now. It needs root, debootstrap, lintian and systemd.
# It ends what it started.
set -eu
package=$(realpath "$1")
work=$(mktemp -d)
root=$work/root
pids=(0 0 0 0)

end() {
    for node in 1 2 3; do
        stop "$node"
    done
    umount -l "$root/proc" 2> "$work/umount" || true
    rm -rf --one-file-system "$work"
}
trap end EXIT

stop() {
    [ "${pids[$1]}" = 0 ] || kill -9 "${pids[$1]}" 2> "$work/killed" || true
    pids[$1]=0
}

say() {
    echo "\$ $*"
}

# Runs a command in the clean Debian, and says so.
inside() {
    say "$@"
    chroot "$root" env LC_ALL=C.UTF-8 DEBIAN_FRONTEND=noninteractive "$@"
}

# A command of the user that nodes run as.
as_node() {
    say runuser -u ccnode -- "$@"
    chroot --userspec=ccnode:ccnode "$root" "$@"
}

# Ends the test where a command that has to fail doesn't, or the other way round.
expect() {
    local wanted=$1 status=0
    shift
    "$@" > "$work/expected" 2>&1 || status=$?
    cat "$work/expected"
    if [ "$status" != "$wanted" ]; then
        echo "status $status of: $*; wanted: $wanted" >&2
        exit 1
    fi
}

address() {
    echo "127.0.0.1:1720$1"
}

# Starts a node as the unit does: with its variables, its user, its folder alone.
start() {
    say "ExecStart of ccnode@$1 (as ccnode, with /etc/ccnode/$1.env)"
    # The inner shell reads them.
    # shellcheck disable=SC2016
    chroot --userspec=ccnode:ccnode "$root" \
        sh -c 'umask 077; set -a; . "/etc/ccnode/$1.env"; exec /usr/libexec/ccnode/run-node "$1"' sh "$1" \
        2>> "$work/log-$1" &
    pids[$1]=$!
    disown
}

make_root() {
    if [ -n "${1:-}" ]; then
        cp -a "$1" "$root"
    else
        debootstrap --variant=minbase --include=systemd bookworm "$root" http://deb.debian.org/debian > "$work/debootstrap.log"
    fi
    mount -t proc proc "$root/proc"
    cp "$package" "$root/tmp/ccnode.deb"
}

install_package() {
    inside apt-get -q -y install "/tmp/$1" > "$work/installed" 2>&1 || { cat "$work/installed"; exit 1; }
    grep -E '^(\$|Setting up ccnode|Unpacking ccnode|Preparing to unpack .*ccnode)|^ccnode:' "$work/installed"
    # The fields are dpkg-query's.
    # shellcheck disable=SC2016
    inside dpkg-query -W -f '${Package} ${Version} ${Status}\n' ccnode
}

look_at_files() {
    inside ccnode --version
    inside ccnode --help | head -3
    inside stat -c '%U %a %n' /var/lib/ccnode /etc/ccnode
    inside getent passwd ccnode
    inside test -f /usr/share/man/man1/ccnode.1.gz -a -f /usr/share/doc/ccnode/README.md
    inside dpkg --verify ccnode
}

configure() {
    local node
    for node in 1 2 3; do
        echo "$node=$(address "$node")" >> "$root/etc/ccnode/peers"
        printf 'LISTEN=%s\nPEERS_FILE=/etc/ccnode/peers\nOPTIONS=\n' "$(address "$node")" > "$root/etc/ccnode/$node.env"
        as_node mkdir -m 700 "/var/lib/ccnode/$node"
        as_node ccnode format "/var/lib/ccnode/$node" "$node" --initial 1,2,3 --beta 2/3 --cluster blue
    done
}

# A node without an address, or without the list that it is to have, isn't begun: the unit doesn't start it again then.
refuse_bad_words() {
    expect 2 inside env LISTEN= /usr/libexec/ccnode/run-node 1
    expect 2 inside env LISTEN="$(address 1)" PEERS_FILE=/etc/ccnode/none /usr/libexec/ccnode/run-node 1
}

run_nodes() {
    local node
    for node in 1 2 3; do
        start "$node"
    done
    sleep 1
    expect 0 inside ccnode ask "$(address 1)" 1 store packaged
    expect 0 inside ccnode ask "$(address 3)" 3 collect
    grep -q '1:1=packaged' "$work/expected"
}

# The same package under a greater version. Nodes that run go on with the program that they were started with.
upgrade() {
    dpkg-deb -R "$package" "$work/next"
    sed -i 's/^Version: .*/&+next/' "$work/next/DEBIAN/control"
    dpkg-deb --root-owner-group -b "$work/next" "$root/tmp/next.deb" > "$work/built"
    install_package next.deb
    kill -0 "${pids[2]}"
    expect 0 inside ccnode ask "$(address 2)" 2 collect
    stop 2
    start 2
    sleep 1
    expect 0 inside ccnode ask "$(address 2)" 2 collect
    grep -q '1:1=packaged' "$work/expected"
}

remove_and_come_back() {
    local node
    for node in 1 2 3; do
        stop "$node"
    done
    inside apt-get -q -y remove ccnode > "$work/removed" 2>&1
    expect 0 ls "$root/etc/ccnode" "$root/var/lib/ccnode/1"
    expect 127 inside ccnode --version
    install_package next.deb
    run_nodes_again
}

run_nodes_again() {
    start 1
    start 2
    sleep 1
    expect 0 inside ccnode ask "$(address 1)" 4 collect
    grep -q '1:1=packaged' "$work/expected"
    stop 1
    stop 2
}

purge() {
    mkdir -p "$root/etc/systemd/system/multi-user.target.wants"
    ln -s /lib/systemd/system/ccnode@.service "$root/etc/systemd/system/multi-user.target.wants/ccnode@1.service"
    inside apt-get -q -y purge ccnode > "$work/purged" 2>&1
    grep -E '^(Removing|Purging|ccnode:)|^\$' "$work/purged"
    expect 2 ls -d "$root/etc/ccnode"
    expect 0 ls "$root/var/lib/ccnode" "$root/var/lib/ccnode/1"
    expect 0 find "$root/etc/systemd/system" -name 'ccnode@*'
    [ ! -s "$work/expected" ]
}

# The unit where systemd and the program are installed, and the package.
analyze() {
    expect 0 inside systemd-analyze verify --man=no ccnode@1.service
    expect 0 inside systemd-analyze security --offline=yes --no-pager ccnode@1.service > "$work/security"
    tail -n 1 "$work/security"
    say lintian "$(basename "$package")"
    lintian --allow-root --fail-on error "$package"
}

make_root "${2:-}"
install_package ccnode.deb
look_at_files
configure
refuse_bad_words
run_nodes
analyze
upgrade
remove_and_come_back
purge
echo 'the package installs, runs and upgrades, and leaves what it has to leave'
