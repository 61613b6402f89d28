#!/usr/bin/env python3
"""Measures what clients wait beside 200 clients that don't read, and beside a peer that reads a byte a second.

usage: slow_beside.py PROGRAM [SECONDS [ROUNDS]]

Three nodes of share 32, two of which are enough. Eight clients store at nodes 1 and 2 for SECONDS (4): alone, beside 200
others at the same two nodes, each of which asks ten times a second and reads no answer, while node 3 gets a byte a second
from each of the two, and beside both. It does so ROUNDS (3) times, by turns, and prints each round, in microseconds. The
status is 1 where the median of the p99 is more than twice that of the clients alone, or a node ended. TMPDIR says where the
nodes' folders are made.
"""
import contextlib
import socket
import statistics
import sys
import threading
import time

import nodes
from load import Asker, percentile, run_clients
from nodes import LOOPBACK, Cluster, Session, Verdicts, client, say

ASKERS, DEAF, PAUSE, SLOW_PEER, PIECE, SMALL = 8, 200, 0.1, 3, 1 << 16, 4096
BOTH = "beside both"
WAYS = {
    "alone": (False, False), "beside clients that don't read": (True, False), "beside a slow peer": (False, True), BOTH: (True, True)
}


class Way:
    """The way of a node to a peer. While it is slow the peer gets one byte a second."""

    def __init__(self, port, slow):
        self.port, self.slow = port, slow
        self.listener = socket.socket()
        self.listener.setsockopt(socket.SOL_SOCKET, socket.SO_RCVBUF, SMALL)
        self.listener.bind((LOOPBACK, 0))
        self.listener.listen()
        threading.Thread(target=self.accept, daemon=True).start()

    def address(self):
        return "{}:{}".format(*self.listener.getsockname())

    def accept(self):
        with contextlib.suppress(OSError):
            while True:
                near = self.listener.accept()[0]
                threading.Thread(target=self.relay, args=(near,), daemon=True).start()

    def relay(self, near):
        with near, contextlib.suppress(OSError), socket.create_connection((LOOPBACK, self.port)) as far:
            threading.Thread(target=self.pass_on, args=(far, near, None), daemon=True).start()
            self.pass_on(near, far, self.slow)

    @staticmethod
    def pass_on(reader, writer, slow):
        """Until one of the two ends, whose other half ends then too."""
        with contextlib.suppress(OSError):
            while data := reader.recv(1 if slow and slow.is_set() else PIECE):
                writer.sendall(data)
                if slow and slow.is_set():
                    time.sleep(1)
        for end in (reader, writer):
            with contextlib.suppress(OSError):
                end.shutdown(socket.SHUT_RDWR)


class SlowWays(Cluster):
    """Three nodes; nodes 1 and 2 reach node 3 by ways that can be slow."""

    def __init__(self, program):
        super().__init__(program, 3, beta="2/3", share=32)
        self.slow = threading.Event()
        self.ways = {node: Way(self.ports[SLOW_PEER], self.slow) for node in (1, 2)}

    def __exit__(self, *_):
        super().__exit__()
        for way in self.ways.values():
            way.listener.close()

    def way(self, node, peer):
        return self.ways[node].address() if peer == SLOW_PEER else super().way(node, peer)


class DeafClients:
    """Clients that ask for the view ten times a second, under one number each, and read no answer. One that is closed connects anew."""

    def __init__(self, cluster):
        self.addresses = [(LOOPBACK, cluster.ports[1 + number % 2]) for number in range(DEAF)]
        self.sockets = [None] * DEAF
        self.sent = self.closed = 0
        self.over = threading.Event()
        self.thread = threading.Thread(target=self.go_on, daemon=True)

    def __enter__(self):
        self.thread.start()
        return self

    def __exit__(self, *_):
        self.over.set()
        self.thread.join()
        for number in range(DEAF):
            self.close(number)

    def go_on(self):
        while not self.over.wait(PAUSE):
            for number in range(DEAF):
                try:
                    self.ask(number)
                except BlockingIOError:
                    pass
                except OSError:
                    self.closed += 1
                    self.close(number)

    def ask(self, number):
        if not self.sockets[number]:
            self.sockets[number] = self.connect(self.addresses[number])
        frame = client.ask_frame(10_000 + number, 1, client.command_bytes(["collect"]))
        if self.sockets[number].send(frame) < len(frame):
            raise OSError("a part of a frame")
        self.sent += 1

    @staticmethod
    def connect(address):
        connection = socket.socket()
        connection.setsockopt(socket.SOL_SOCKET, socket.SO_RCVBUF, SMALL)
        connection.connect(address)
        connection.setblocking(False)
        return connection

    def close(self, number):
        if self.sockets[number]:
            self.sockets[number].close()
        self.sockets[number] = None


def p99_of(cluster, askers, seconds, has_deaf, is_slow):
    """The p99 of the askers, and what else is to be said."""
    with contextlib.ExitStack() as stack:
        deaf = stack.enter_context(DeafClients(cluster)) if has_deaf else None
        if is_slow:
            cluster.slow.set()
            stack.callback(cluster.slow.clear)
        time.sleep(1)
        took, passed = run_clients(askers, seconds)
    beside = f", {deaf.sent} asks whose answers nobody read, {deaf.closed} closed" if deaf else ""
    told = f"{len(took) / passed:.0f} a second, p50 {percentile(took, 0.5):.0f}, the longest {max(took) * 1e6:.0f}"
    return percentile(took, 0.99), told + beside


def measure(verdicts, program, seconds, rounds):
    with SlowWays(program) as cluster:
        cluster.start_all()
        cluster.wait_until_ready()
        askers = [Asker(cluster.address(1 + number % 2), 1 + number, ["store", "beside"]) for number in range(ASKERS)]
        found = {way: [] for way in WAYS}
        for _ in range(rounds):
            for way, (has_deaf, is_slow) in WAYS.items():
                p99, rest = p99_of(cluster, askers, seconds, has_deaf, is_slow)
                say(f"{way}: p99 {p99:.0f}, {rest}")
                found[way].append(p99)
                # The third node gets what it missed.
                Session(cluster.address(SLOW_PEER), 5).ask(["collect"], 60)
                time.sleep(2)
        medians = {way: statistics.median(rows) for way, rows in found.items()}
        for way, median in medians.items():
            verdicts.add(median <= 2 * medians["alone"], f"{way}: p99 {median:.0f}, {median / medians['alone']:.2f} of that alone")
        verdicts.add(not cluster.has_ended(), f"nodes that ended: {cluster.has_ended() or 'none'}")


def main():
    nodes.end_on_signals()
    verdicts = Verdicts()
    seconds, rounds = (float(sys.argv[place]) if len(sys.argv) > place else least for place, least in ((2, 4), (3, 3)))
    measure(verdicts, sys.argv[1], seconds, int(rounds))
    sys.exit(not verdicts.is_good)


if __name__ == "__main__":
    if len(sys.argv) < 2:
        sys.exit(__doc__)
    main()
