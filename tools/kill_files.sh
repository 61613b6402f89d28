#!/usr/bin/env bash
# Kills a node that writes on two files, again and again, each time at a random moment, and opens it again: it must have
# all events that it told durable, and at most the one that it hadn't told yet. Prints counts, and ends with status 1 at
# the first node that has too few or too many.
#     kill_files.sh CC_BENCH CCNODE KILLS
set -eu
bench=$(realpath "$1") ccnode=$(realpath "$2") kills=$3
folder=$(mktemp -d)
trap 'rm -rf "$folder"' EXIT
mkdir "$folder/node"
"$ccnode" format "$folder/node" 1 --initial 1

# The number in the last whole line of these words, or nothing.
last_of() {
    sed -n "s/^$1 \([0-9]*\)$/\1/p" "$folder/told" | tail -n 1
}

durable=0 opened=0 ahead=0 idle=0
for ((kill = 1; kill <= kills; kill++)); do
    # Whoever is killed early enough has not even emptied it.
    : > "$folder/told"
    "$bench" write "$folder/node" > "$folder/told" &
    pid=$!
    sleep "0.0$((RANDOM % 9))$((RANDOM % 10))"
    kill -9 "$pid"
    wait "$pid" 2> "$folder/killed" || true
    found=$(last_of opened)
    if [ -z "$found" ]; then
        idle=$((idle + 1))
        continue
    fi
    opened=$((opened + 1))
    if [ "$found" -lt "$durable" ] || [ "$found" -gt $((durable + 1)) ]; then
        echo "kill $kill: $durable events were told durable, and the node that was opened has $found"
        exit 1
    fi
    ahead=$((ahead + found - durable))
    told=$(last_of durable)
    durable=${told:-$found}
done
echo "$kills kills: $opened nodes opened, $idle killed before that, $durable events durable,"
echo "$ahead times the node had the event that it hadn't told yet, and no event was lost"
