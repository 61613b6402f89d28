#!/usr/bin/env bash
# Runs three nodes on loopback in a fresh folder and shows what a client sees while one of them is killed and started again.
# It ends all that it started, also when it is interrupted. The nodes wait for two of three (--beta 2/3).
set -eu
ccnode=$(realpath "$1")
ports=(0 17101 17102 17103)
folder=$(mktemp -d)
cd "$folder"
pids=(0 0 0 0)

end() {
    for node in 1 2 3; do
        [ "${pids[$node]}" = 0 ] || kill -9 "${pids[$node]}" 2> "$folder/killed" || true
    done
    rm -rf "$folder"
}
trap end EXIT

address() {
    echo "127.0.0.1:${ports[$1]}"
}

peers() {
    local list='' node
    for node in 1 2 3; do
        [ "$node" = "$1" ] || list="$list${list:+,}$node=$(address "$node")"
    done
    echo "$list"
}

# Where a node takes requests over HTTP.
web() {
    echo "127.0.0.1:$((ports[$1] + 1000))"
}

start() {
    echo "\$ ccnode run node-$1 --listen $(address "$1") --http $(web "$1") --peers $(peers "$1") &"
    "$ccnode" run "node-$1" --listen "$(address "$1")" --http "$(web "$1")" --peers "$(peers "$1")" 2>> "log-$1" &
    pids[$1]=$!
    disown
}

# Says what is asked, and then asks it.
say() {
    echo "\$ ccnode $*"
    "$ccnode" "$@"
}

for node in 1 2 3; do
    mkdir "node-$node"
    say format "node-$node" "$node" --initial 1,2,3 --beta 2/3 --cluster demo
done
for node in 1 2 3; do
    start "$node"
done
sleep 1
for node in 1 2 3; do
    say ask "$(address "$node")" "$((10 + node))" store "from-$node"
done
say ask "$(address 1)" 11 collect
if command -v curl > "$folder/found"; then
    echo "\$ curl http://$(web 3)/v1/view"
    curl -sS "http://$(web 3)/v1/view"
    echo
fi
echo "\$ kill -9 (node 3)"
kill -9 "${pids[3]}"
pids[3]=0
say ask "$(address 1)" 11 store while-3-is-down
say ask "$(address 2)" 12 collect
start 3
sleep 1
for node in 1 2 3; do
    say ask "$(address "$node")" "$((10 + node))" collect > "collected-$node"
    cat "collected-$node"
done
if [ "$(tail -qn 1 collected-1 collected-2 collected-3 | sort -u | wc -l)" = 1 ]; then
    echo 'all three nodes collect the same'
else
    echo 'the nodes collect different views'
    exit 1
fi
