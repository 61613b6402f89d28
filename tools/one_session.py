#!/usr/bin/env python3
"""Has two clients use one session of a node, and checks that nobody is told `Stored` for what wasn't done.

usage: one_session.py PROGRAM

In each of sixteen rounds two clients of session 7 add a number each, through proxies that delay what they send. In eight
rounds both ask at once. In the others the first client's command is held in its proxy until that client has given up and
the second one asks under a number. So it is done by `ccnode ask`, and by the Python library at another node.
At the end the node's set has to have each number whose client was told that it was stored. A client that is told of the
other one, or told nothing, is in order. It takes a minute, ends all that it started, and its status is 1 where a number is
missing.
"""
import concurrent.futures
import pathlib
import random
import socket
import subprocess
import sys
import threading
import time

import nodes
from nodes import Cluster, Session, Verdicts, client, framed

sys.path.insert(0, str(pathlib.Path(__file__).resolve().parent.parent / "clients/python/src"))
import ccnode  # noqa: E402

ROUNDS, SESSION, READER = 16, 7, 8
ASK, ADD = 3, 7
# Seconds. A frame is delayed by so many at most, and a client gives up after so many.
DELAY, PATIENCE = 0.03, 1
# How long a held command is ahead of what released it, and an ask of the one client ahead of the other's.
LEAD, STEP = 0.3, 0.05


class Proxy:
    """A way to a node on which each frame of a client is delayed. It drops none, though the client may have gone."""

    def __init__(self, address, before):
        self.to = Session(address, SESSION).address
        # It is called with the command of each ask that has a number, before that is passed on.
        self.before = before
        self.listener = socket.create_server((nodes.LOOPBACK, 0))
        self.address = f"{nodes.LOOPBACK}:{self.listener.getsockname()[1]}"
        threading.Thread(target=self.accept, daemon=True).start()

    def __enter__(self):
        return self

    def __exit__(self, *_):
        # It ends the accept that waits, too.
        self.listener.shutdown(socket.SHUT_RDWR)
        self.listener.close()

    def accept(self):
        while True:
            try:
                incoming, _ = self.listener.accept()
            except OSError:
                return
            threading.Thread(target=self.serve, args=(incoming,), daemon=True).start()

    def serve(self, incoming):
        with socket.create_connection(self.to) as outgoing:
            threading.Thread(target=self.answer, args=(outgoing, incoming), daemon=True).start()
            try:
                while True:
                    body = client.read_frame(incoming)
                    time.sleep(random.uniform(0, DELAY))
                    if body[0] == ASK and any(body[9:17]):
                        self.before(body[17])
                    outgoing.sendall(framed(body))
            except OSError:
                pass

    def answer(self, outgoing, incoming):
        try:
            while piece := outgoing.recv(65_536):
                incoming.sendall(piece)
        except OSError:
            pass


def by_command(program):
    """Adds a number by `ccnode ask`."""

    def add(address, number):
        words = [program, "ask", address, str(SESSION), "add", str(number), "--timeout", str(PATIENCE)]
        return subprocess.run(words, capture_output=True, text=True, timeout=30).stdout.strip()

    return add


def by_library(address, number):
    """Adds a number by a client of the Python library."""
    try:
        with ccnode.connect(address, SESSION, PATIENCE) as asking:
            asking.add(number)
            return "Stored"
    except ccnode.CcnodeError as why:
        return type(why).__name__


def at_once(add, address, numbers):
    """What two clients are told that ask together: each ask with a number waits for one of the other client, and one of the
    two follows the other at once."""
    both = threading.Barrier(2)

    def wait(_):
        try:
            time.sleep(STEP * both.wait(LEAD))
        except threading.BrokenBarrierError:
            both.reset()

    with Proxy(address, wait) as first, Proxy(address, wait) as second:
        with concurrent.futures.ThreadPoolExecutor() as threads:
            return list(threads.map(add, (first.address, second.address), numbers))


def held(add, address, numbers):
    """What two clients are told of which the first one's command is held until the second one asks under a number."""
    release = threading.Event()

    def hold(command):
        if command == ADD:
            release.wait(30)

    def let_go(_):
        if not release.is_set():
            release.set()
            time.sleep(LEAD)

    with Proxy(address, hold) as first, Proxy(address, let_go) as second:
        return [add(first.address, numbers[0]), add(second.address, numbers[1])]


def play(address, add, way, rounds):
    """The numbers whose clients were told `Stored`, and all that was told."""
    stored, all_told = [], []
    for place in rounds:
        numbers = 2 * place + 1, 2 * place + 2
        told = way(add, address, numbers)
        stored += [number for number, word in zip(numbers, told) if word == "Stored"]
        all_told += told
        # What was held comes to the node.
        time.sleep(LEAD)
    return stored, all_told


def read_set(address):
    session = Session(address, READER)
    words = session.ask(["readset"])
    session.close()
    return {int(word) for word in words[len("Set [") : -1].split(",") if word}


def try_clients(verdicts, program, name, add):
    with Cluster(program, 1) as cluster:
        cluster.start(1)
        cluster.wait_until_ready()
        address = cluster.address(1)
        for way, what, rounds in ((at_once, "at once", range(0, ROUNDS, 2)), (held, "one is held", range(1, ROUNDS, 2))):
            stored, told = play(address, add, way, rounds)
            missing = sorted(set(stored) - read_set(address))
            words = ", ".join(f"{told.count(word)} {word}" for word in sorted(set(told)))
            verdicts.add(not missing, f"{name}, {what}: told {words}; stored for nobody: {missing or 'none'}")


def main(program):
    verdicts = Verdicts()
    try_clients(verdicts, program, "ccnode ask", by_command(program))
    try_clients(verdicts, program, "the Python library", by_library)
    sys.exit(not verdicts.is_good)


if __name__ == "__main__":
    if len(sys.argv) != 2:
        sys.exit(__doc__)
    nodes.end_on_signals()
    main(sys.argv[1])
