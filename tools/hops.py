#!/usr/bin/env python3
"""Prints the way of one store through three nodes on loopback, hop by hop, in microseconds. It fails nothing.

    hops.py crates/ccnode/out/ccnode [STORES [FOLDER]]

One client asks node 1 for STORES (300) stores, one after the other; an operation waits for two of the three nodes. A library
that is preloaded into each node notes its calls (hops.c; it needs a C compiler). Of the store that took the median time each
call is printed that ended between the client's request and its answer: when it ended and how long it had taken, its thread,
its file and its result. At the end stands what such stores spent in syncs, in other calls and asleep. Folders are made in
FOLDER (/dev/shm)."""
import collections
import os
import pathlib
import statistics
import struct
import subprocess
import sys
import tempfile
import time

from nodes import HERE, Cluster, Session, end_on_signals, say

NOTE = struct.Struct("QQiiq8s")
HEADER = 8


class Noted(Cluster):
    """Nodes whose calls are noted."""

    def start(self, node, *words, **others):
        os.environ["HOPS"] = str(self.folder / f"hops-{node}")
        super().start(node, *words, **others)

    def notes(self, node):
        """What a node did: when it began, how long that took, its thread, the call, its file and its result."""
        bytes_ = (self.folder / f"hops-{node}").read_bytes()
        count = min(int.from_bytes(bytes_[:HEADER], "little"), (len(bytes_) - HEADER) // NOTE.size)
        for at in range(count):
            began, ended, thread, file, result, name = NOTE.unpack_from(bytes_, HEADER + at * NOTE.size)
            yield began / 1e3, (ended - began) / 1e3, thread, name.rstrip(b"\0").decode(), file, result


def library(folder):
    made = folder / "hops.so"
    subprocess.run(["cc", "-shared", "-fPIC", "-O2", "-o", made, HERE / "hops.c", "-ldl"], check=True)
    return str(made)


def microseconds():
    return time.clock_gettime_ns(time.CLOCK_MONOTONIC) / 1e3


def take_stores(cluster, count):
    """When each store began and ended."""
    session = Session(cluster.address(1), 1)
    times = []
    for number in range(count):
        began = microseconds()
        session.ask(["store", f"value-{number}"])
        times.append((began, microseconds()))
    session.close()
    return times


def print_way(notes, began, ended):
    say("  ended     took  node  thread  call      file  result")
    threads = {}
    for node, at, took, thread, name, file, result in sorted(notes, key=lambda it: it[1] + it[2]):
        if began <= at + took <= ended:
            number = threads.setdefault((node, thread), len([it for it in threads if it[0] == node]) + 1)
            say(f"{at + took - began:>7.1f}{took:>9.1f}{node:>6}{number:>8}  {name:<8}{file:>6}{result:>8}")


def print_sums(notes, times):
    """What the nodes spent on one store: the median over all stores of the sum over its calls."""
    kinds = {"fdatasy": "syncs", "fsync": "syncs", "wait": "asleep", "wake": "wakes"}
    sums = [collections.Counter() for _ in times]
    calls = [collections.Counter() for _ in times]
    at = 0
    for _, began, took, _, name, _, _ in sorted(notes, key=lambda it: it[1]):
        while at < len(times) and times[at][1] < began:
            at += 1
        if at < len(times) and times[at][0] <= began:
            kind = kinds.get(name, name)
            sums[at][kind] += took
            calls[at][kind] += 1
    for kind in sorted({kind for it in sums for kind in it}):
        say(f"{kind:<8} {statistics.median(it[kind] for it in calls):>5.0f} calls of the three nodes,"
            f" {statistics.median(it[kind] for it in sums):>8.1f} us")


def main():
    end_on_signals()
    program, count = sys.argv[1], int(sys.argv[2]) if len(sys.argv) > 2 else 300
    tempfile.tempdir = sys.argv[3] if len(sys.argv) > 3 else "/dev/shm"
    with Noted(program, 3, beta="2/3") as cluster:
        cluster.preloads = dict.fromkeys(cluster.nodes, library(pathlib.Path(cluster.folder)))
        cluster.start_all()
        cluster.wait_until_ready()
        times = take_stores(cluster, count)[count // 10:]
        notes = [(node, *note) for node in cluster.nodes for note in cluster.notes(node)]
    took = sorted(ended - began for began, ended in times)
    median = took[len(took) // 2]
    say(f"{len(took)} stores: p50 {median:.0f} us, with the notes")
    print_way(notes, *next(it for it in times if it[1] - it[0] == median))
    print_sums(notes, times)


if __name__ == "__main__":
    main()
