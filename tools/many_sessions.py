#!/usr/bin/env python3
"""Plays a script of nearly 10,000 lines over 16 nodes with four sessions each, and checks what the nodes answer.

    many_sessions.py crates/ccnode/out/ccnode

The asks of a round come in random order, while others run and wait. Each has to be answered, at each node in the order in
which they came, and none may be refused. Every third round all nodes crash. It prints counts; the status is 1 where
something isn't so.
"""
import random
import subprocess
import sys
import tempfile

NODES = range(1, 17)
SESSIONS = range(4)
# What the four sessions of a node ask in a round, and how many posts each node makes of all that: its own 6, and for the
# 64 asks an acknowledgement of each store, and a reply before that to each query.
COMMANDS = ["store w{}", "max {}", "collect", "readmax"]
POSTS_OF_A_ROUND = 6 + 64 + 32


def round_lines(number, requests):
    asks = [(node, session) for node in NODES for session in SESSIONS]
    random.shuffle(asks)
    lines = []
    for count, (node, session) in enumerate(asks):
        name = node * 10 + session
        requests[name] = requests.get(name, 0) + 1
        command = COMMANDS[session].format(number * 100 + name)
        lines.append(f"ask {node} {name} {requests[name]} {command}")
        if count % 8 == 7:
            lines.append(f"all {random.choice([3, 17, 60])}")
    lines += ["all 6000"] * 6
    posts = POSTS_OF_A_ROUND * (number + 1)
    lines += [f"acked {node} {peer} {posts}" for node in NODES for peer in NODES]
    if number % 3 == 2:
        lines += [f"crash {node}" for node in NODES]
    return lines


def script_lines():
    members = ",".join(map(str, NODES))
    lines = [f"member {node} of {members}" for node in NODES]
    requests, number = {}, 0
    while len(lines) < 9_600:
        lines += round_lines(number, requests)
        number += 1
    return lines


def asked(lines):
    asks = {node: [] for node in NODES}
    for line in lines:
        words = line.split()
        if words[0] == "ask":
            asks[int(words[1])].append((words[2], words[3]))
    return asks


def answered(program, lines):
    """What each node replies to, in order, and how many events were refused or nodes failed."""
    replies, faults = {node: [] for node in NODES}, 0
    script = tempfile.TemporaryFile("w+")
    script.write("\n".join(lines) + "\n")
    script.seek(0)
    with subprocess.Popen([program, "play"], stdin=script, stdout=subprocess.PIPE, text=True) as player:
        for line in player.stdout:
            words = line.split(" ", 4)
            if words[1] == "reply":
                replies[int(words[0])].append((words[2], words[3]))
            elif words[1].strip() not in ("accepted", "send", "ack", "opened"):
                faults += 1
    return replies, faults + (player.returncode != 0)


random.seed(7)
script = script_lines()
asks = asked(script)
replies, faults = answered(sys.argv[1], script)
in_order = sum(replies[node] == asks[node] for node in NODES)
print(f"{len(script)} lines, {sum(map(len, asks.values()))} asks, {sum(map(len, replies.values()))} answers")
print(f"answered in the order of asking at {in_order} of {len(NODES)} nodes; refusals and faults: {faults}")
sys.exit(in_order != len(NODES) or faults != 0)
