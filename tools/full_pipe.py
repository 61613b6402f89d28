#!/usr/bin/env python3
"""Runs nodes whose standard error, or output, is a pipe that nobody reads, and checks that they go on, and end.

usage: full_pipe.py PROGRAM

A node whose pipe is full, or fills up, has to answer clients while its peers are killed and started again; so has one
whose reader has gone. A node whose file can't grow any more has to end within two seconds, though it can't say why. It takes
a minute and a half, ends all that it started, and its status is 1 where one of these isn't so.
"""
import fcntl
import os
import socket
import sys
import time

import nodes
from nodes import Cluster, NoAnswer, Session, Verdicts, framed

SET_PIPE_SIZE, PAGE = 1031, 4096
# Seconds: how long peers come and go, each for so long, and how long a client waits for an answer.
FLAPPING, AWAY, PATIENCE = 15, 1.5, 8
# How many blocks of 512 bytes a file has, and within how many seconds a node ends whose file is full, and a bit.
BLOCKS, END, GRACE, LONGEST = 64, 2, 0.5, 10
# A body that is no frame that a node takes: it notes that.
NO_FRAME = framed(b"\x04" + bytes(30))
GARBAGE, STORES = 30, 100


class Notes(Cluster):
    """A cluster whose nodes note what is of this level or a greater one."""

    def __init__(self, program, count, level):
        super().__init__(program, count, beta="2/3")
        self.level = level

    def run_words(self, node):
        return [*super().run_words(node), "--log", self.level]


class FullPipe:
    """A pipe that nobody reads, and that takes so many bytes more. The end to write to is given to a node."""

    def __init__(self, left):
        self.reader, self.writer = os.pipe()
        fcntl.fcntl(self.writer, SET_PIPE_SIZE, PAGE)
        if left < PAGE:
            os.write(self.writer, b"x" * (PAGE - left))

    def __enter__(self):
        return self

    def __exit__(self, *_):
        for end in (self.reader, self.writer):
            os.close(end)


def send_garbage(cluster):
    for _ in range(GARBAGE):
        with socket.create_connection(Session(cluster.address(1), 0).address, timeout=PATIENCE) as connection:
            connection.sendall(NO_FRAME)


def flap(program, level, left):
    """How many stores a node with a full pipe answers while its peers come and go."""
    with FullPipe(left) as pipe, Notes(program, 3, level) as cluster:
        cluster.start(1, error=pipe.writer)
        for node in (2, 3):
            cluster.start(node)
        cluster.wait_until_ready(PATIENCE)
        session, answers = Session(cluster.address(1), 7), 0
        end, away = time.monotonic() + FLAPPING, 2
        while time.monotonic() < end:
            cluster.kill(away)
            if level == "debug":
                send_garbage(cluster)
            back = time.monotonic() + AWAY
            while time.monotonic() < back:
                session.ask(["store", f"a{answers}"], PATIENCE)
                answers += 1
            cluster.start(away)
            time.sleep(AWAY / 2)
            away = 5 - away
        session.close()
        return f"{answers} stores answered"


def reader_gone(program):
    """A node whose standard error nobody can read any more, as behind `| head`."""
    with Notes(program, 1, "debug") as cluster:
        reader, writer = os.pipe()
        cluster.start(1, error=writer)
        os.close(writer)
        os.close(reader)
        session = Session(cluster.address(1), 7)
        for place in range(STORES):
            session.ask(["store", f"a{place}"], PATIENCE)
            if place % 10 == 0:
                send_garbage(cluster)
        session.close()
        return f"{STORES} stores answered"


def disk_full(program, left, stream):
    """After how many seconds a node ends whose file can't grow, where that stream is a pipe with so many bytes left."""
    with FullPipe(left) as pipe, Cluster(program, 1, name=None) as cluster:
        cluster.start(1, blocks=BLOCKS, **{stream: pipe.writer})
        ended, session = cluster.end_of(1), Session(cluster.address(1), 7)
        answered = time.monotonic()
        while not ended:
            try:
                session.ask(["store", "a"], END / 10)
                answered = time.monotonic()
            except NoAnswer:
                if time.monotonic() - answered > LONGEST:
                    raise NoAnswer(f"it runs still after {LONGEST} s") from None
        session.close()
        took = ended[0] - answered
        if took > END + GRACE:
            raise NoAnswer(f"it ended after {took:.1f} s")
        return f"it ended after {took:.1f} s"


def main(program):
    verdicts = Verdicts()
    tries = {
        "the reader of standard error has gone": lambda: reader_gone(program),
        "standard error is full, peers come and go": lambda: flap(program, "info", 0),
        "standard error fills up, peers come and go, --log debug": lambda: flap(program, "debug", 600),
        "the disk is full, standard error takes 4,096 bytes": lambda: disk_full(program, PAGE, "error"),
        "the disk is full, standard error takes 100 bytes": lambda: disk_full(program, 100, "error"),
        "the disk is full, standard error takes none": lambda: disk_full(program, 0, "error"),
        "the disk is full, standard output takes none": lambda: disk_full(program, 0, "output"),
    }
    for what, attempt in tries.items():
        try:
            verdicts.add(True, f"{what}: {attempt()}")
        except (NoAnswer, OSError) as why:
            verdicts.add(False, f"{what}: {why}")
    sys.exit(not verdicts.is_good)


if __name__ == "__main__":
    if len(sys.argv) != 2:
        sys.exit(__doc__)
    nodes.end_on_signals()
    main(sys.argv[1])
