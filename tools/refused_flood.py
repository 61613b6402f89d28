#!/usr/bin/env python3
"""Has 300 connections send frames that a node refuses, and times a client's refusals and another's stores meanwhile.

    refused_flood.py crates/ccnode/out/ccnode

The frames are acknowledgements of what was never sent, each connection's in the name of another node: they are refused and
answered nothing. Each connection has as many of them waiting as its buffers take, for 20 seconds. One client asks under number 0, which is always refused, and one
stores. It prints the longest of each, before the flood and during it, and takes half a minute. The status is 1 where one
took more than half a second, or the node closed a connection of the flood.
"""
import select
import socket
import sys
import threading
import time

import nodes
from nodes import Cluster, Session, Verdicts, client, say

CONNECTIONS = 300
SECONDS = 20.0
LIMIT = 0.5
# What a write takes of the flood at most, in frames, what a connection's own buffer holds, in bytes, and the first of the
# nodes in whose names the frames are.
PIECE, BUFFER, FIRST = 4_000, 262_144, 1_000


class Flood(threading.Thread):
    """Keeps the buffers of its connections full of refused frames, until it is over."""

    def __init__(self, address):
        super().__init__(daemon=True)
        host, port = address.rsplit(":", 1)
        self.connections, self.sent, self.size = {}, 0, len(nodes.ack_frame(FIRST, 2**60))
        self.is_full, self.is_over = threading.Event(), threading.Event()
        self.poll = select.poll()
        for node in range(FIRST, FIRST + CONNECTIONS):
            connection = socket.create_connection((host, int(port)), timeout=10)
            connection.setsockopt(socket.SOL_SOCKET, socket.SO_SNDBUF, BUFFER)
            connection.setblocking(False)
            piece = memoryview(nodes.ack_frame(node, 2**60) * PIECE)
            self.connections[connection.fileno()] = [connection, piece, 0]
            self.poll.register(connection, select.POLLOUT)

    def run(self):
        while self.connections and not self.is_over.is_set():
            ready = self.poll.poll(100)
            if not ready:
                self.is_full.set()
            for file, _ in ready:
                self.send(file)

    def send(self, file):
        """Sends what the connection takes, on from the middle of a frame where the last write ended there."""
        connection, piece, place = self.connections[file]
        try:
            sent = connection.send(piece[place:])
        except BlockingIOError:
            return
        except OSError:
            self.poll.unregister(file)
            connection.close()
            del self.connections[file]
            return
        self.sent += sent
        self.connections[file][2] = (place + sent) % self.size

    def end(self):
        self.is_over.set()
        self.join()
        for connection, *_ in self.connections.values():
            connection.close()


class Timed(threading.Thread):
    """Does something again and again, until it is over. How often, and the longest."""

    def __init__(self, does, seconds):
        super().__init__(daemon=True)
        self.does, self.end = does, time.monotonic() + seconds
        self.count, self.longest, self.fault = 0, 0.0, None

    def run(self):
        while time.monotonic() < self.end and self.fault is None:
            start = time.monotonic()
            try:
                self.does()
            except (OSError, nodes.NoAnswer) as why:
                self.fault = str(why)
            self.count += 1
            self.longest = max(self.longest, time.monotonic() - start)


def refused(address):
    """Asks under number 0 over a connection of its own, and is refused."""
    host, port = address.rsplit(":", 1)
    with socket.create_connection((host, int(port)), timeout=60) as connection:
        refusal = client.answer_to(connection, 9, 0, client.command_bytes(["collect"]))[1]
    if refusal != client.STALE:
        raise nodes.NoAnswer(f"refused {refusal}")


def measure(cluster, seconds, verdicts, when):
    address = cluster.address(1)
    session = Session(address, 7, patience=60.0)
    tries = {
        "refusals": Timed(lambda: refused(address), seconds),
        "stores": Timed(lambda: session.ask(["store", "a"], 60), seconds),
    }
    for timed in tries.values():
        timed.start()
    for name, timed in tries.items():
        timed.join(seconds + 65)
        is_good = timed.fault is None and not timed.is_alive() and timed.longest <= LIMIT
        told = f"{timed.count} {name}, the longest after {timed.longest:.2f} s"
        verdicts.add(is_good, f"{when}: {told}{f', then {timed.fault}' if timed.fault else ''}")
    session.close()


def main(program):
    nodes.end_on_signals()
    verdicts = Verdicts()
    with Cluster(program, 1, name=None) as cluster:
        cluster.start_all()
        cluster.wait_until_ready()
        measure(cluster, 3.0, verdicts, "before")
        flood = Flood(cluster.address(1))
        flood.start()
        flood.is_full.wait(10)
        sent = flood.sent
        say(f"{len(flood.connections)} connections, {sent // flood.size} frames on their way")
        measure(cluster, SECONDS, verdicts, "during the flood")
        left = len(flood.connections)
        flood.end()
        verdicts.add(left == CONNECTIONS, f"{left} of {CONNECTIONS} connections of the flood are open")
        say(f"{(flood.sent - sent) // flood.size} frames more were taken meanwhile")
        measure(cluster, 3.0, verdicts, "afterwards")
        verdicts.add(not cluster.has_ended(), "the node runs")
    sys.exit(not verdicts.is_good)


if __name__ == "__main__":
    if len(sys.argv) != 2:
        sys.exit(__doc__)
    main(sys.argv[1])
