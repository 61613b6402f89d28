#!/usr/bin/env python3
"""Takes all places of a node, the operator's spare ones too, and checks that the operator gets in.

usage: operator_places.py PROGRAM

1,024 connections that say nothing take the places that are for everybody, and eight more take those for Leave and Retire
alone. Each of these says a length and then a byte each four seconds, and is made anew where the node closes it. A node that
waits five seconds for a whole frame there, and not for each byte, has to take a `retire` within half a minute. It takes that
long, ends all that it started, and its status is 1 where the operator doesn't get in.
"""
import resource
import socket
import struct
import subprocess
import sys
import threading
import time

import nodes
from nodes import Cluster, Session, Verdicts

PLACES, SPARE = 1_024, 8
# Seconds: between the bytes, and until the operator has to be in.
PAUSE, PATIENCE = 4, 30
# The length of a frame that never comes.
LENGTH = struct.pack(">I", 65_536)


class Dripping:
    """Connections that take the spare places: each says a length, and then a byte at a time."""

    def __init__(self, address):
        self.address, self.is_over = address, threading.Event()
        self.closed = 0
        self.connections = [self.begun() for _ in range(SPARE)]
        self.thread = threading.Thread(target=self.run, daemon=True)

    def begun(self):
        connection = socket.create_connection(self.address, timeout=PAUSE)
        connection.sendall(LENGTH)
        return connection

    def __enter__(self):
        self.thread.start()
        return self

    def __exit__(self, *_):
        self.is_over.set()
        self.thread.join()
        for connection in self.connections:
            connection.close()

    def run(self):
        while not self.is_over.wait(PAUSE):
            for place, connection in enumerate(self.connections):
                try:
                    connection.sendall(b"\0")
                except OSError:
                    self.closed += 1
                    self.renew(place)

    def renew(self, place):
        self.connections[place].close()
        try:
            self.connections[place] = self.begun()
        except OSError:
            pass


def retire(cluster, node):
    """What the operator is told who retires a node."""
    try:
        return cluster.does(["retire", cluster.address(1), str(node)])
    except subprocess.TimeoutExpired:
        return None, "nothing"


def try_operator(verdicts, cluster):
    address = Session(cluster.address(1), 0).address
    idle = [socket.create_connection(address, timeout=10) for _ in range(PLACES)]
    time.sleep(1)
    with Dripping(address) as dripping:
        start, tries, told = time.monotonic(), 0, (1, "")
        while told[0] != 0 and time.monotonic() - start < PATIENCE:
            tries, told = tries + 1, retire(cluster, 77)
            time.sleep(0.5)
        took = time.monotonic() - start
        verdicts.add(
            told[0] == 0, f"beside {PLACES} idle connections and {SPARE} that drip: {told[1]!r} after {took:.0f} s and {tries}"
            f" tries; {dripping.closed} of those that drip were closed",
        )
    for connection in idle:
        connection.close()


def main(program):
    files = resource.getrlimit(resource.RLIMIT_NOFILE)[1]
    resource.setrlimit(resource.RLIMIT_NOFILE, (min(8_192, files), files))
    verdicts = Verdicts()
    with Cluster(program, 1) as cluster:
        cluster.start(1)
        cluster.wait_until_ready()
        verdicts.add(retire(cluster, 76)[0] == 0, "beside no connection: retire is taken")
        try_operator(verdicts, cluster)
        time.sleep(1)
        verdicts.add(retire(cluster, 78)[0] == 0, "once they are closed: retire is taken")
    sys.exit(not verdicts.is_good)


if __name__ == "__main__":
    if len(sys.argv) != 2:
        sys.exit(__doc__)
    nodes.end_on_signals()
    main(sys.argv[1])
