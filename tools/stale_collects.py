#!/usr/bin/env python3
"""Plays random scripts, and compares each reading with what was answered before it was asked for.

    stale_collects.py crates/ccnode/out/ccnode [SCRIPTS]

A cluster is cut in two again and again. In each round some node is asked, and of the messages that stand on each link
within a part some are carried; some nodes crash, put out again what they keep, or get a message twice. A reading is
stale where it misses a write that was answered, or something that a reading showed, before it was asked for. Where more
than half of the members are enough, none may be; where half or fewer are, some must be found. The status is 1 if not
so.
"""
import random
import re
import subprocess
import sys

CUTS = 5
ROUNDS = 12
COMMANDS = ["store w", "collect", "collect", "max {}", "readmax", "flag", "readflag", "add {}", "readset"]
# A fraction, a number of nodes, and whether the share of the nodes that it makes is more than half of them.
CLUSTERS = [("2/3", 3, True), ("3/5", 4, True), ("3/5", 5, True), ("1/2", 4, False), ("1/3", 3, False)]


def play(program, script):
    lines = "\n".join(script) + "\n"
    played = subprocess.run([program, "play"], input=lines, capture_output=True, text=True, check=True)
    return played.stdout.splitlines()


def last_numbers(printed):
    """Of each link the last number that was sent, and the last one that was heard."""
    sent, heard = {}, {}
    for line in printed:
        words = line.split(" ", 4)
        if words[1] == "send":
            link = int(words[0]), int(words[2])
            sent[link] = max(int(words[3]), sent.get(link, 0))
        elif words[1] == "ack":
            heard[int(words[2]), int(words[0])] = int(words[3])
    return sent, heard


def next_lines(chance, nodes, part, printed):
    """The lines of a round behind its ask, by what was printed so far."""
    sent, heard = last_numbers(printed)
    links = [(a, b) for a in nodes for b in nodes if (a in part) == (b in part)]
    chance.shuffle(links)
    lines = []
    for link in links:
        first = heard.get(link, 0) + (chance.random() > 0.1)
        last = min(first + chance.randrange(8), sent.get(link, 0) + 1)
        lines += [f"carry {link[0]} {link[1]} {number}" for number in range(max(first, 1), last)]
    lines += [f"crash {node}" for node in nodes if chance.random() < 0.05]
    return lines + [f"resend {node}" for node in nodes if chance.random() < 0.02]


def play_rounds(program, seed, beta, count):
    """What a script prints, and of each session its command and how many lines were printed before it asked."""
    chance, nodes = random.Random(seed), range(1, count + 1)
    script = [f"fractions {beta} 4/5"]
    script += [f"member {node} of {','.join(map(str, nodes))}" for node in nodes]
    asks, printed = [], []
    for turn in range(CUTS * ROUNDS):
        if turn % ROUNDS == 0:
            part = chance.sample(nodes, chance.choice([0, 1, count // 2]))
        command = chance.choice(COMMANDS).format(turn % 30)
        asks.append((command, len(printed)))
        script.append(f"ask {chance.choice(nodes)} {turn + 1} 1 {command}")
        script += next_lines(chance, nodes, part, printed)
        printed = play(program, script)
    return printed, asks


def shown(answer):
    """What an answer shows: of each node the number of its row, a maximum, a flag, or members of a set."""
    name, _, rest = answer.partition(" ")
    if name == "Seen":
        return {f"writes of {node}": int(number) for node, number in re.findall(r"(\d+):(\d+)=", rest)}
    if name == "Set":
        return {f"member {member}": 1 for member in re.findall(r"\d+", rest)}
    return {name: int(rest)}


def written(command, node, number):
    """What an answered write lets be seen from then on, the write of this number of its node."""
    name, _, value = command.partition(" ")
    if name == "max":
        more = {"Max": int(value)}
    elif name == "add":
        more = {f"member {value}": 1}
    else:
        more = {"Flag": 1} if name == "flag" else {}
    return {f"writes of {node}": number} | more


def kind(thing):
    """The answer that shows such a thing."""
    return {"writes": "Seen", "member": "Set"}.get(thing.split(" ")[0], thing)


def compared(printed, asks):
    """How many readings were answered, and how many of them are stale."""
    known, before, writes, readings, stale = {}, [], {}, 0, 0
    for line in printed:
        before.append(known)
        reply = re.match(r"(\d+) reply (\d+) 1 (.*)", line)
        if not reply:
            continue
        node, answer = reply[1], reply[3]
        command, lines = asks[int(reply[2]) - 1]
        if answer == "Stored":
            writes[node] = writes.get(node, 0) + 1
            new = written(command, node, writes[node])
        else:
            new = shown(answer)
            readings += 1
            wanted = {thing: least for thing, least in before[lines].items() if kind(thing) == answer.split(" ")[0]}
            stale += any(new.get(thing, 0) < least for thing, least in wanted.items())
        known = known | {thing: max(number, known.get(thing, 0)) for thing, number in new.items()}
    return readings, stale


program, scripts = sys.argv[1], int(sys.argv[2]) if len(sys.argv) > 2 else 10
wrong = False
for beta, count, is_more in CLUSTERS:
    sums = [compared(*play_rounds(program, seed, beta, count)) for seed in range(scripts)]
    readings, stale = (sum(column) for column in zip(*sums))
    print(f"{beta} of {count} nodes: {scripts} scripts, {readings} readings, {stale} stale")
    wrong |= readings == 0 or (stale > 0) == is_more
sys.exit(wrong)
