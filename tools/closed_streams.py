#!/usr/bin/env python3
"""Runs a node with its standard streams closed in all ways, kills it, and checks that what it answered is there.

    closed_streams.py crates/ccnode/out/ccnode [KILLS]

A program that opens a file while a standard stream is closed may get that stream's descriptor, and then writes what it
prints into the file. In each of the seven ways of closing a node is killed KILLS (10) times with SIGKILL while a client
stores, after 200 answers each time, and opened again by `dump` and `run`: the number and the text of the last answered
store have to be there, or those of the one under way, and `format` has to refuse the folder. A node whose files can't grow
has to end and leave them as well. The other commands run in the same ways, and may change no file but as they do with
open streams. `run` writes the node anew at each start, so there the node has to stay the same. The status is 1 where
something isn't so.
"""
import itertools
import random
import re
import socket
import subprocess
import sys
import threading

from nodes import LOOPBACK, Cluster, NoAnswer, Session, Verdicts, end_on_signals, say

STORES = 200
# How many blocks of 512 bytes a file has on a disk that is full: two strides of the zeros that go ahead of the records.
BLOCKS = 1_024
NAMES = {0: "input", 1: "output", 2: "error"}
WAYS = [way for count in (1, 2, 3) for way in itertools.combinations(NAMES, count)]
FILES = ("lock", "side-a", "side-b")
# What the program prints. No text that is stored here has it.
PRINTED = re.compile(rb"node \d|INFO|armed|closed|opened|ormatted|Listen|Stored|left|retired|ccnode|refused|no answer")
SESSION = 7


class Lost(Exception):
    """What was answered isn't there, or a file has what no node writes."""


def check(holds, what):
    if not holds:
        raise Lost(what)


def named(way):
    return "+".join(NAMES[stream] for stream in way)


def contents(cluster, name="node-1"):
    folder = cluster.folder / name
    return {name: (folder / name).read_bytes() for name in FILES}


def check_files(cluster):
    """The files hold nothing that the program prints."""
    for name, data in contents(cluster).items():
        found = PRINTED.search(data)
        check(not found, f"{name} has {data[found.start():][:40]!r} at byte {found.start()}" if found else "")
        check(name != "lock" or not data, f"lock has {data[:40]!r}")


def collected(cluster):
    """The number and the text of the node's last store."""
    session = Session(cluster.address(1), SESSION)
    try:
        row = re.search(r"1:(\d+)=([^/]*)/", session.ask(["collect"], 10))
    finally:
        session.close()
    return (int(row[1]), row[2]) if row else (0, "")


def store_until_killed(cluster, number):
    """Stores texts with their numbers, and kills the node at a random moment after 200 answers. The last that was
    answered."""
    session, last = Session(cluster.address(1), SESSION), number
    killer = threading.Timer(random.uniform(0, 0.05), cluster.running[1].kill)
    try:
        while cluster.running[1].poll() is None:
            session.ask(["store", f"v{last + 1}"], 10 if last < number + STORES else 1)
            last += 1
            if last == number + STORES:
                killer.start()
    except NoAnswer as why:
        check(last >= number + STORES, f"after {last - number} answers: {why}")
    finally:
        killer.cancel()
        session.close()
        cluster.kill(1)
    check(last >= number + STORES, f"the node ended after {last - number} answers")
    return last


def check_opened(cluster, answered):
    """What is found after a kill: the number of the node's last store."""
    status, printed = cluster.does(["dump", "node-1"])
    check(status == 0, f"dump after {answered} answered stores: {printed.splitlines()[-1:]}")
    check_files(cluster)
    cluster.start(1)
    number, text = collected(cluster)
    cluster.kill(1)
    check(answered <= number <= answered + 1, f"{number} stores of {answered} that were answered")
    check(text == f"v{number}", f"store {number} is {text}")
    return number


def check_refuses_format(cluster):
    told = cluster.does(["format", "node-1", "1", "--initial", "1"])
    check(told == (1, "AlreadyFormatted"), f"format tells {told}")


def run_and_kill(program, way, kills):
    """What is found over all kills."""
    number = ahead = 0
    with Cluster(program, 1) as cluster:
        for _ in range(kills):
            cluster.start(1, way)
            answered = store_until_killed(cluster, number)
            number = check_opened(cluster, answered)
            ahead += number - answered
            check_refuses_format(cluster)
    return f"{number - ahead} stores answered and found over {kills} kills, and {ahead} more that were under way"


def run_until_full(program, way):
    """What is found after a node has ended by itself, since a file can't grow any more."""
    with Cluster(program, 1) as cluster:
        cluster.start(1, way, BLOCKS)
        process, session, answered = cluster.running[1], Session(cluster.address(1), SESSION), 0
        try:
            while process.poll() is None and answered < 100 * STORES:
                session.ask(["store", f"v{answered + 1}"], 5)
                answered += 1
        except NoAnswer:
            pass
        session.close()
        status = process.wait(timeout=10)
        cluster.kill(1)
        check(status == 1, f"a node whose file can't grow ends with status {status}")
        found = check_opened(cluster, answered)
        return f"status {status}, {answered} stores answered and found, and {found - answered} more that was under way"


def check_status(told, wanted, may_fail, name):
    """A command ends as with open streams. One that can't print or read may tell that by a status of 1."""
    check(told == wanted or (told == 1 and may_fail), f"{name} ends with status {told}, with open streams {wanted}")
    return told


def played(cluster, way=()):
    script = cluster.folder / "script"
    script.write_text("member 1 of 1\nask 1 7 1 store a\n")
    with open(script) as lines:
        return cluster.does(["play"], way, lines)[0]


def dumped(cluster):
    """The node of the folder, as `dump` prints it behind three lines on its sides."""
    status, printed = cluster.does(["dump", "--node", "node-1"])
    return status, printed.splitlines()[3:]


def commands_on_folders(program, way):
    """The statuses of commands that leave a folder that is formatted as it was, or at least its node, and of `format` on an
    empty one."""
    formatting, statuses = ["1", "--initial", "1"], []
    kept = ((["format", "node-1", *formatting], contents), (["dump", "node-1"], contents), (None, dumped))
    with Cluster(program, 1) as cluster, socket.create_server((LOOPBACK, cluster.ports[1])):
        for words, found in kept:
            words = words or cluster.run_words(1)
            wanted, before = cluster.does(words)[0], found(cluster)
            statuses.append(check_status(cluster.does(words, way)[0], wanted, 1 in way, words[0]))
            check(found(cluster) == before, f"{words[0]} changes what the folder holds")
            check_files(cluster)
        statuses.append(check_status(played(cluster, way), played(cluster), {0, 1} & set(way), "play"))
        for name in ("open", "closed"):
            (cluster.folder / name).mkdir()
        wanted = cluster.does(["format", "open", *formatting])[0]
        told = cluster.does(["format", "closed", *formatting], way)[0]
        check(contents(cluster, "closed") == contents(cluster, "open"), "format makes other files")
        return [*statuses, check_status(told, wanted, 1 in way, "format")]


def commands_over_the_network(program, way):
    """The statuses of commands that ask a node that runs. Each is given twice, the second time with open streams."""
    with Cluster(program, 1) as cluster:
        cluster.start(1)
        cluster.wait_until_ready()
        address, before = cluster.address(1), collected(cluster)[0]
        statuses = []
        for words in (["ask", address, "9", "store", "a"], ["retire", address, "99"], ["leave", address]):
            told, wanted = cluster.does(words, way)[0], cluster.does(words)[0]
            statuses.append(check_status(told, wanted, 1 in way, words[0]))
            if words[0] == "ask":
                check(collected(cluster)[0] == before + 2, "two stores by `ask` aren't done once each")
        cluster.kill(1)
        check_files(cluster)
        return statuses


def try_way(verdicts, program, way, kills):
    tries = {
        "kills": lambda: run_and_kill(program, way, kills),
        "a full disk": lambda: run_until_full(program, way),
        "commands on folders": lambda: f"statuses {commands_on_folders(program, way)}",
        "commands over the network": lambda: f"statuses {commands_over_the_network(program, way)}",
    }
    for name, attempt in tries.items():
        try:
            verdicts.add(True, f"without standard {named(way)}, {name}: {attempt()}")
        except (Lost, NoAnswer, OSError, subprocess.TimeoutExpired) as why:
            verdicts.add(False, f"without standard {named(way)}, {name}: {why}")


def main():
    end_on_signals()
    program, kills = sys.argv[1], int(sys.argv[2]) if len(sys.argv) > 2 else 10
    verdicts = Verdicts()
    say("statuses: format, dump, run at a port in use, play, format of an empty folder; ask, retire, leave")
    for way in WAYS:
        try_way(verdicts, program, way, kills)
    sys.exit(not verdicts.is_good)


if __name__ == "__main__":
    main()
