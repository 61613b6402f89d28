#!/usr/bin/env python3
"""Has clients read slowly what a node has long given up to listen to, and counts the node's sockets.

usage: slow_readers.py PROGRAM

A node's view is made long by a forged store of 248 nodes. Each of 30 clients repeats the last requests of some sessions,
and then sends bytes that are no frame: the node reads no more of it, and has answers left to write, which the client reads
a bit at a time. Beside these 1,100 connections are opened that say nothing. The node may have 1,032 connections at once,
with those to which it only writes, and has to answer a client once the silent ones are closed. And where its disk is full,
it has to end within two seconds while clients read slowly. It takes a minute and a half, ends all that it started, and its
status is 1 where one of these isn't so.
"""
import os
import pathlib
import resource
import socket
import struct
import sys
import time

import nodes
from nodes import Cluster, NoAnswer, Session, Verdicts, client, framed, post_frame

CLIENTS, FEW, SILENT, MOST = 30, 3, 1_100, 1_032
# Beside the connections that it takes a node has its listener and its own connection to itself.
OWN = 3
# Nodes that never were. The sessions whose last requests are repeated: each client takes those of one group, since what it
# is told goes to another one that asks the same before that.
FORGED, GROUPS, GROUP = range(2, 250), 10, 6
# So many seconds after one client the next one comes, and sends what is no frame after so many; each reads so many bytes
# each time.
STEP, LISTENED, PIECE = 0.3, 2, 2_000
# How many blocks of 512 bytes a file has where the disk gets full, and within how many seconds a node has to end then.
BLOCKS, END, GRACE, LONGEST = 8_192, 2, 0.5, 60
COLLECT = client.command_bytes(["collect"])


def forged_store():
    """A message of node 2: a view of all forged nodes, each with as much as a row has, under a tag."""
    value = bytes([64]) + b"t" * 64 + struct.pack(">QBB", 1, 1, 32) + struct.pack(">32I", *range(32))
    rows = b"".join(struct.pack(">IQ", node, 1) + value for node in FORGED)
    return b"\x09" + struct.pack(">H", len(FORGED)) + rows + struct.pack(">QI", 1, 2)


class LongView(Cluster):
    """Nodes 1 and 2, of which 1 alone runs and is enough. It has the forged rows, and collects are long."""

    def __init__(self, program):
        super().__init__(program, 2, beta="1/2", name=None)

    def begin(self, blocks=None):
        self.start(1, blocks=blocks)
        session = Session(self.address(1), 900)
        session.ask(["readflag"], 20)
        with socket.create_connection(session.address) as connection:
            connection.sendall(post_frame(2, 1, forged_store()))
            time.sleep(1)
        with socket.create_connection(session.address) as connection:
            for node in FORGED:
                connection.sendall(framed(b"\x07" + struct.pack(">I", node)))
            time.sleep(2)
        session.close()

    def asks(self, groups):
        """Of each of so many groups of sessions: their last requests, once more."""
        return [b"".join(map(self.ask, range(GROUP * place, GROUP * place + GROUP))) for place in range(groups)]

    def ask(self, number):
        session = Session(self.address(1), number)
        session.ask(["collect"], 20)
        session.close()
        return client.ask_frame(number, session.request, COLLECT)

    def sockets(self):
        folder = pathlib.Path(f"/proc/{self.running[1].pid}/fd")
        count = 0
        for file in folder.iterdir():
            try:
                count += os.readlink(file).startswith("socket:")
            except OSError:
                pass
        return count


class SlowReaders:
    """Clients that repeat requests, send what is no frame, and read the answers slowly."""

    def __init__(self, cluster, groups):
        self.address, self.asks = Session(cluster.address(1), 0).address, cluster.asks(groups)
        self.listening, self.reading, self.count = [], [], 0

    def __enter__(self):
        return self

    def __exit__(self, *_):
        for connection in (*(connection for _, connection in self.listening), *self.reading):
            connection.close()

    def open(self):
        connection = socket.socket()
        # Little fits into the system's buffers.
        connection.setsockopt(socket.IPPROTO_TCP, socket.TCP_MAXSEG, 536)
        connection.setsockopt(socket.SOL_SOCKET, socket.SO_RCVBUF, 4096)
        connection.settimeout(2)
        connection.connect(self.address)
        connection.sendall(self.asks[self.count % len(self.asks)])
        self.count += 1
        self.listening.append((time.monotonic(), connection))

    def give_up(self):
        """Those that were opened a while ago send what is no frame."""
        while self.listening and time.monotonic() - self.listening[0][0] > LISTENED:
            _, connection = self.listening.pop(0)
            connection.sendall(bytes(4))
            connection.setblocking(False)
            self.reading.append(connection)

    def read(self):
        for connection in list(self.reading):
            try:
                if connection.recv(PIECE):
                    continue
            except BlockingIOError:
                continue
            except OSError:
                pass
            self.reading.remove(connection)
            connection.close()

    def come(self, count):
        """So many clients come, one after the other, and have given up at the end."""
        for _ in range(count):
            self.open()
            self.step()
        while self.listening:
            self.step()

    def step(self):
        self.give_up()
        self.read()
        time.sleep(STEP)


def count_sockets(verdicts, program):
    with LongView(program) as cluster:
        cluster.begin()
        with SlowReaders(cluster, GROUPS) as readers:
            readers.come(CLIENTS)
            silent = [socket.create_connection(readers.address, timeout=10) for _ in range(SILENT)]
            time.sleep(1)
            most, left = cluster.sockets(), len(readers.reading)
            what = f"{left} clients that read slowly and {SILENT} that are silent: {most} sockets of {MOST + OWN}"
            verdicts.add(most <= MOST + OWN, what)
            for connection in silent:
                connection.close()
            readers.step()
            others = Session(cluster.address(1), 901)
            told = others.ask(["readflag"], 20)
            others.close()
        verdicts.add(told.startswith("Flag"), f"a client once the silent ones are closed: {told}")


def end_beside_readers(verdicts, program):
    with LongView(program) as cluster:
        cluster.begin(BLOCKS)
        ended, session = cluster.end_of(1), Session(cluster.address(1), 902)
        with SlowReaders(cluster, FEW) as readers:
            readers.come(FEW)
            answered, left = time.monotonic(), 0
            while not ended and time.monotonic() - answered < LONGEST:
                try:
                    session.ask(["store", "a"], END / 10)
                    answered, left = time.monotonic(), len(readers.reading)
                except NoAnswer:
                    pass
                readers.read()
        session.close()
        took, how = (ended[0] - answered, "ended") if ended else (LONGEST, "runs still")
        what = f"the disk is full beside {left} clients that read slowly: it {how} after {took:.1f} s"
        verdicts.add(left and took <= END + GRACE, what)


def main(program):
    files = resource.getrlimit(resource.RLIMIT_NOFILE)[1]
    resource.setrlimit(resource.RLIMIT_NOFILE, (min(8_192, files), files))
    verdicts = Verdicts()
    for trial in (count_sockets, end_beside_readers):
        try:
            trial(verdicts, program)
        except (NoAnswer, OSError) as why:
            verdicts.add(False, f"{trial.__name__}: {why}")
    sys.exit(not verdicts.is_good)


if __name__ == "__main__":
    if len(sys.argv) != 2:
        sys.exit(__doc__)
    nodes.end_on_signals()
    main(sys.argv[1])
