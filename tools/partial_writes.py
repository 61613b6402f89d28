#!/usr/bin/env python3
"""Has a client read slowly while replies and refusals come to it, and compares each frame that it gets.

usage: partial_writes.py PROGRAM [ROUNDS]

A node's view is made long by a forged store, so a reply has 55 kilobytes, and the client's socket takes little. In each round
one connection asks in 32 sessions at once: each collects, and asks for its last request, which is refused. The node writes at
once what the socket takes, and a thread of it writes the rest. The client reads bit by bit, with pauses. Each reply and each
refusal has to come once and whole, whichever of the two wrote it; the status is 1 where one doesn't.
"""
import random
import socket
import struct
import sys
import time

import nodes
from nodes import Session, Verdicts, client
from slow_readers import COLLECT, LongView

ROUNDS, SESSIONS = 6, range(100, 132)
# A piece that is read at once, and the longest pause behind one.
PIECE, PAUSE = 3_000, 0.004
REPLY, REFUSED = 4, 5
PATIENCE = 30.0


def small_connection(address):
    connection = socket.socket()
    connection.setsockopt(socket.IPPROTO_TCP, socket.TCP_MAXSEG, 536)
    connection.setsockopt(socket.SOL_SOCKET, socket.SO_RCVBUF, 4096)
    connection.settimeout(PATIENCE)
    connection.connect(address)
    return connection


class Dripping:
    """Frames that are read bit by bit."""

    def __init__(self, connection):
        self.connection, self.bytes = connection, b""

    def take(self, count):
        while len(self.bytes) < count:
            time.sleep(random.uniform(0, PAUSE))
            piece = self.connection.recv(random.randrange(1, PIECE))
            if not piece:
                raise ConnectionError("the node has closed the connection")
            self.bytes += piece
        taken, self.bytes = self.bytes[:count], self.bytes[count:]
        return taken

    def frame(self):
        return self.take(int.from_bytes(self.take(4), "big"))


def expected(sessions, seen):
    """The frames that a round has to bring, in some order: of each session the reply and the refusal."""
    for session, request in sessions.items():
        yield bytes([REPLY]) + struct.pack(">QQ", session, request) + seen
        yield bytes([REFUSED]) + struct.pack(">QQBQ", session, 0, client.STALE, request)


def play(address, sessions, seen):
    """What is missing of a round, and what came beside it."""
    asks = [client.ask_frame(session, number, COLLECT) for session, request in sessions.items() for number in (request, 0)]
    with small_connection(address) as connection:
        connection.sendall(b"".join(asks))
        frames = Dripping(connection)
        came = [frames.frame() for _ in range(2 * len(sessions))]
    wanted = sorted(expected(sessions, seen))
    return [frame[:17] for frame in wanted if frame not in came], [frame[:17] for frame in came if frame not in wanted]


def main(program, rounds):
    verdicts = Verdicts()
    with LongView(program) as cluster:
        cluster.begin()
        session = Session(cluster.address(1), 99)
        session.ask(["collect"], 20)
        session.connection.sendall(client.ask_frame(99, session.request + 1, COLLECT))
        seen = client.read_frame(session.connection)[17:]
        for number in range(1, rounds + 1):
            sessions = dict.fromkeys(SESSIONS, number)
            start = time.monotonic()
            try:
                missing, others = play(session.address, sessions, seen)
                told = f"missing {missing or 'nothing'}, and beside them {others or 'nothing'}"
                is_good = not missing and not others
            except OSError as error:
                told, is_good = str(error), False
            verdicts.add(is_good, f"round {number}: 64 frames in {time.monotonic() - start:.1f} s: {told}")
    sys.exit(not verdicts.is_good)


if __name__ == "__main__":
    if len(sys.argv) not in (2, 3):
        sys.exit(__doc__)
    nodes.end_on_signals()
    main(sys.argv[1], int(sys.argv[2]) if len(sys.argv) == 3 else ROUNDS)
