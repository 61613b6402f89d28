#!/usr/bin/env bash
# Tries a package's unit under systemd: test_systemd.sh PACKAGE [ROOT]. It boots a clean Debian with systemd as its
# process 1, in namespaces of its own whose network is loopback alone, and does there what docs/RUN.md says, "As a
# service": three nodes that are asked, killed, stopped, and begun again after the whole of it was killed; what the
# journal says, what the unit may do, and an upgrade, a removal and a purge. ROOT is a folder with a Debian that
# debootstrap made before (--include=systemd), which is copied; else one is made now. It needs root, debootstrap and
# cgroups of version 2. It ends what it started.
set -eu
package=$(realpath "$1")
work=$(mktemp -d)
root=$work/root
cgroups=$(findmnt --noheadings --first-only --output TARGET --types cgroup2)
group=$cgroups/ccnode-test-$$
init=0

end() {
    shut_down
    rm -rf --one-file-system "$work"
}
trap end EXIT

say() {
    echo "\$ $*"
}

fail() {
    echo "test_systemd: $*" >&2
    exit 1
}

# Runs a command in the Debian that was booted, and says so.
inside() {
    say "$@"
    quietly "$@"
}

quietly() {
    nsenter --target "$init" --mount --uts --ipc --net --pid --cgroup -- \
        env -i PATH=/usr/sbin:/usr/bin:/sbin:/bin LC_ALL=C.UTF-8 DEBIAN_FRONTEND=noninteractive "$@"
}

# Ends the test where a command ends with another status than that.
expect() {
    local wanted=$1 status=0
    shift
    say "$@"
    quietly "$@" > "$work/expected" 2>&1 || status=$?
    cat "$work/expected"
    [ "$status" = "$wanted" ] || fail "status $status of: $*; wanted: $wanted"
}

# Ends the test where what was printed last doesn't have these words.
expect_words() {
    grep -qF -- "$1" "$work/expected" || fail "nothing said: $1"
}

# A property of a unit.
property() {
    quietly systemctl show --value --property "$1" "ccnode@$2"
}

# Ends the test where a property of a unit isn't that within ten seconds.
expect_property() {
    local tries
    for ((tries = 0; tries < 100; tries++)); do
        [ "$(property "$1" "$2")" != "$3" ] || break
        sleep 0.1
    done
    echo "ccnode@$2: $1=$(property "$1" "$2")"
    [ "$(property "$1" "$2")" = "$3" ] || fail "$1 of ccnode@$2; wanted: $3"
}

address() {
    echo "127.0.0.1:1720$1"
}

make_root() {
    if [ -n "${1:-}" ]; then
        cp -a "$1" "$root"
    else
        debootstrap --variant=minbase --include=systemd bookworm "$root" http://deb.debian.org/debian \
            > "$work/debootstrap.log"
    fi
    cp "$package" "$root/srv/ccnode.deb"
    dpkg-deb -R "$package" "$work/next"
    sed -i 's/^Version: .*/&+next/' "$work/next/DEBIAN/control"
    dpkg-deb --root-owner-group -b "$work/next" "$root/srv/next.deb" > "$work/built"
}

# What the first process of the new namespaces does: it makes ROOT its root, and becomes systemd.
# The inner shells read their variables.
# shellcheck disable=SC2016
begin='
    mount --make-rprivate /
    mount --bind "$1" "$1"
    cd "$1"
    mount -t proc proc proc
    mount --bind proc/sys proc/sys
    mount -o remount,bind,ro proc/sys
    mount -t sysfs -o ro sysfs sys
    mount -t cgroup2 cgroup2 sys/fs/cgroup
    mount -t tmpfs -o mode=755 tmpfs dev
    for device in null zero full random urandom tty; do
        : > "dev/$device"
        mount --bind "/dev/$device" "dev/$device"
    done
    mkdir dev/pts dev/shm
    mount -t devpts -o newinstance,ptmxmode=0666,mode=620,gid=5 devpts dev/pts
    ln -s pts/ptmx dev/ptmx
    pivot_root . mnt
    exec chroot . sh -c "umount -l /mnt; exec env -i container=other PATH=/usr/sbin:/usr/bin /lib/systemd/systemd"
'

boot() {
    local tries state
    mkdir "$group"
    (
        echo "$BASHPID" > "$group/cgroup.procs"
        exec unshare --fork --kill-child --pid --mount --uts --ipc --net --cgroup sh -eu -c "$begin" sh "$root"
    ) > "$work/boot" 2>&1 < /dev/null &
    unshared=$!
    disown
    for ((tries = 0; tries < 300; tries++)); do
        init=$(pgrep -P "$unshared" || echo 0)
        state=$(quietly systemctl is-system-running 2> "$work/booting" || true)
        case $state in running | degraded) break ;; esac
        sleep 0.2
    done
    echo "systemd is process 1: $state"
    quietly systemctl --version | head -n 1
    case $state in running | degraded) ;; *) fail "it didn't come up: $(cat "$work/boot")" ;; esac
}

# Ends all of it at once, as pulling the plug does.
shut_down() {
    [ "$init" = 0 ] || kill -9 "$init" 2> "$work/killed" || true
    init=0
    for _ in 1 2 3 4 5 6 7 8 9 10; do
        [ ! -d "$group" ] || find "$group" -depth -type d -exec rmdir {} + 2> "$work/groups" || true
        [ -d "$group" ] || return 0
        sleep 0.2
    done
}

install_package() {
    expect 0 apt-get -q -y install "/srv/$1"
}

configure() {
    local node
    for node in 1 2 3; do
        echo "$node=$(address "$node")" >> "$root/etc/ccnode/peers"
        printf 'LISTEN=%s\nPEERS_FILE=/etc/ccnode/peers\nOPTIONS=\n' "$(address "$node")" > "$root/etc/ccnode/$node.env"
        inside runuser -u ccnode -- mkdir -m 700 "/var/lib/ccnode/$node"
        expect 0 runuser -u ccnode -- ccnode format "/var/lib/ccnode/$node" "$node" --initial 1,2,3 --beta 2/3 --cluster blue
    done
}

# What session SESSION of node NODE is told of all values has what was stored first.
expect_stored() {
    expect 0 ccnode ask "$(address "$1")" "$2" collect --timeout 30
    expect_words '1:1=packaged'
}

run_nodes() {
    expect 0 systemctl enable --now ccnode@1 ccnode@2 ccnode@3
    expect 0 ccnode ask "$(address 1)" 1 store packaged --timeout 30
    expect_stored 3 3
    expect 0 systemctl --no-pager --full status ccnode@1
}

# Killed, restarted by hand, stopped.
disturb() {
    expect 0 systemctl kill --signal=SIGKILL ccnode@2
    expect_property NRestarts 2 1
    expect_stored 2 2
    expect 0 systemctl restart ccnode@1
    expect_stored 1 4
    expect 0 systemctl stop ccnode@3
    expect 3 systemctl is-active ccnode@3
    expect_stored 2 5
    expect 0 systemctl start ccnode@3
    expect_stored 3 6
}

look_at_journal() {
    expect_in_journal 2 'node 2 runs at'
    expect_words 'code=killed, status=9/KILL'
    expect_words 'Scheduled restart job'
}

# Ends the test where a node runs.
expect_none() {
    # The inner shell reads the files.
    expect 1 sh -c 'cat /proc/[0-9]*/comm 2> /dev/null | grep -x ccnode'
}

expect_in_journal() {
    expect 0 journalctl --no-pager -o cat -u "ccnode@$1"
    expect_words "$2"
}

# What a unit does whose files aren't as they have to be: node 4 has no address.
refuse_bad_words() {
    printf 'LISTEN=\n' > "$root/etc/ccnode/4.env"
    inside runuser -u ccnode -- mkdir -m 700 /var/lib/ccnode/4
    inside systemctl start ccnode@4 || true
    expect_property Result 4 exit-code
    expect_property ExecMainStatus 4 2
    expect_property NRestarts 4 0
    expect_in_journal 4 'LISTEN: is to be set in /etc/ccnode/4.env'
    rm "$root/etc/ccnode/4.env"
    rmdir "$root/var/lib/ccnode/4"
}

# Node 5 gets its variables, its folder and what stands in it one after the other, while the unit tries each second.
bring_one_by_one() {
    expect 1 systemctl start ccnode@5
    expect_in_journal 5 'Failed to load environment files'
    printf 'LISTEN=%s\n' "$(address 5)" > "$root/etc/ccnode/5.env"
    sleep 2
    expect_in_journal 5 'status=226/NAMESPACE'
    inside runuser -u ccnode -- mkdir -m 700 /var/lib/ccnode/5
    sleep 2
    expect_in_journal 5 'NotFormatted'
    inside systemctl stop ccnode@5
    expect 0 runuser -u ccnode -- ccnode format /var/lib/ccnode/5 5 --initial 5
    expect 0 systemctl start ccnode@5
    expect 0 ccnode ask "$(address 5)" 1 store alone --timeout 30
    expect 0 systemctl stop ccnode@5
    rm -r "$root/etc/ccnode/5.env" "$root/var/lib/ccnode/5"
}

# A machine comes: its line in the list is all that the nodes which run need. Then it leaves.
enter_and_leave() {
    local before
    before=$(property MainPID 1)
    echo "6=$(address 6)" >> "$root/etc/ccnode/peers"
    printf 'LISTEN=%s\nPEERS_FILE=/etc/ccnode/peers\nOPTIONS="%s"\n' "$(address 6)" \
        "--listen-clients $(address 7) --operators off --status $(address 8)" > "$root/etc/ccnode/6.env"
    inside runuser -u ccnode -- mkdir -m 700 /var/lib/ccnode/6
    expect 0 runuser -u ccnode -- ccnode format /var/lib/ccnode/6 6 --contacts 1,2,3 --beta 2/3 --cluster blue
    expect 0 systemctl start ccnode@6
    expect 0 ccnode ask "$(address 6)" 1 collect --wait --timeout 30
    expect_words '1:1=packaged'
    expect_property MainPID 1 "$before"
    expect 0 ccnode ask "$(address 7)" 2 store entered
    expect 1 ccnode leave "$(address 7)"
    # The page is of a second before at most.
    sleep 2
    expect 0 ccnode status "$(address 8)"
    expect 0 ccnode leave "$(address 6)"
    sleep 2
    expect 0 systemctl stop ccnode@6
    sed -i '/^6=/d' "$root/etc/ccnode/peers"
    rm -r "$root/etc/ccnode/6.env" "$root/var/lib/ccnode/6"
}

# What node 1 may do: its files are looked at and written from within its own mounts, as root.
confine() {
    local main
    main=$(property MainPID 1)
    expect 0 nsenter --target "$main" --mount touch /var/lib/ccnode/1/written
    rm "$root/var/lib/ccnode/1/written"
    for file in /etc/written /usr/written /var/lib/ccnode/2/written /var/lib/written /root/written; do
        expect 1 nsenter --target "$main" --mount touch "$file"
    done
    expect 0 nsenter --target "$main" --mount ls /home /dev
    expect 0 grep -E '^(Uid|CapEff|CapBnd|NoNewPrivs|Seccomp):' "/proc/$main/status"
    expect_words $'NoNewPrivs:\t1'
    expect_words $'Seccomp:\t2'
    expect_words $'CapEff:\t0000000000000000'
    expect 0 grep 'Max open files' "/proc/$main/limits"
    expect_words 4096
    expect 0 cat "/proc/$main/uid_map"
    expect 0 systemd-analyze verify --man=no ccnode@1.service
    expect 0 systemd-analyze security --no-pager ccnode@1
}

# All of it is killed, and booted again: what was enabled runs, and has what was stored.
pull_the_plug() {
    say 'kill -9 (process 1), and boot again'
    shut_down
    boot
    expect_stored 1 7
    expect_stored 3 8
}

upgrade() {
    local before
    before=$(property MainPID 1)
    install_package next.deb
    expect_words "systemctl restart ccnode@ID"
    expect_property MainPID 1 "$before"
    expect 0 systemctl restart ccnode@1
    expect_stored 1 9
}

remove_and_come_back() {
    expect 0 apt-get -q -y remove ccnode
    expect_none
    expect 0 ls /etc/ccnode /var/lib/ccnode/1
    install_package next.deb
    expect 0 systemctl start ccnode@1 ccnode@2 ccnode@3
    expect_stored 2 10
}

purge() {
    expect 0 apt-get -q -y purge ccnode
    expect_none
    expect 2 ls /etc/ccnode
    expect 0 ls /var/lib/ccnode/1 /var/lib/ccnode/2 /var/lib/ccnode/3
    expect 0 find /etc/systemd/system -name 'ccnode@*'
    [ ! -s "$work/expected" ] || fail 'units are enabled still'
}

make_root "${2:-}"
boot
install_package ccnode.deb
configure
run_nodes
disturb
look_at_journal
refuse_bad_words
bring_one_by_one
enter_and_leave
confine
pull_the_plug
upgrade
remove_and_come_back
purge
echo 'the unit runs, is started again, keeps to its folder, and goes with its package'
