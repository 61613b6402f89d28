#!/usr/bin/env python3
"""Measures two programs by turns, each with three nodes on loopback: what a change of the program saves or costs. It fails
nothing.

    turns.py PROGRAM BEFORE [SECONDS [ROUNDS]]

With folders in memory (/dev/shm), on the disk (TMPDIR), and there with syncs that take 2,000 microseconds more, nodes of
share 1 and of share 32 of both programs run at once, and one of them is asked at a time, for SECONDS (2): writes under 1,
8, 64 and 192 clients, and reads under one. There are ROUNDS (6) of each, begun by turns, and none is left out: a line has
the median of each program's rounds, and what the one took of the other. BEFORE may be a release that knows no names of
clusters, so the clusters of both have none.
"""
import contextlib
import os
import statistics
import sys
import tempfile

from beside import Nodes, enter_all, take_turns
from load import COUNTS
from nodes import end_on_signals, say

MEMORY = "/dev/shm"
PAUSE = 2000
COLUMNS = "share clients  kind    a s before     after      p50 before     after     of it  processor before     after     of it"


@contextlib.contextmanager
def folders_in(place):
    """Folders are made there, until the block is left."""
    before, tempfile.tempdir = tempfile.tempdir, place
    try:
        yield
    finally:
        tempfile.tempdir = before


def print_row(share, count, kind, found):
    (rate, p50, _, processor, _), (rate_after, p50_after, _, processor_after, _) = (
        [statistics.median(column) for column in zip(*found[name])] for name in ("before", "after")
    )
    say(f"{share:>5}{count:>8}  {kind:<6}{rate:>12.0f}{rate_after:>10.0f}{p50:>16.0f}{p50_after:>10.0f}{p50_after / p50:>10.2f}"
        f"{processor:>18.0f}{processor_after:>10.0f}{processor_after / processor:>10.2f}")


def measure_in(place, pause, programs, seconds, rounds):
    """Rows of both programs, with folders in that place, and with syncs that take so much longer."""
    say(f"folders in {place}" + (f", syncs {pause} microseconds longer" if pause else ""))
    say(COLUMNS)
    with folders_in(place):
        for share in (1, 32):
            with contextlib.ExitStack() as stack:
                systems = enter_all(stack, {name: Nodes(program, share, pause) for name, program in programs.items()})
                for count in COUNTS:
                    for kind in ("write", "read") if count == 1 else ("write",):
                        print_row(share, count, kind, take_turns(systems, count, kind, seconds, rounds))


def main():
    end_on_signals()
    programs = {"before": sys.argv[2], "after": sys.argv[1]}
    seconds = float(sys.argv[3]) if len(sys.argv) > 3 else 2.0
    rounds = int(sys.argv[4]) if len(sys.argv) > 4 else 6
    say(f"machine load before: {os.getloadavg()[0]:.2f}")
    for place, pause in ((MEMORY, 0), (tempfile.gettempdir(), 0), (tempfile.gettempdir(), PAUSE)):
        measure_in(place, pause, programs, seconds, rounds)


if __name__ == "__main__":
    main()
