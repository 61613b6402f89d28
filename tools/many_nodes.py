#!/usr/bin/env python3
"""Runs many nodes on one machine, in memory: they start, take a load, lose ten at once and get them back. Prints what each
of them takes of the machine.

    many_nodes.py crates/ccnode/out/ccnode [NODES [SECONDS]]

NODES (33) are of beta 2/3 and share 32, so they go on without ten of 33. A client at each node stores and collects for
SECONDS (10) with all nodes, for as long without the ten, and for as long once they are back. It fails where a node ends by
itself, a client is told anything but an answer, or the ten don't answer within a minute."""
import os
import pathlib
import statistics
import sys
import tempfile
import time

from nodes import Cluster, Load, Session, Verdicts, end_on_signals, say

LOST = 10


def counts_of(cluster, node):
    """Threads, descriptors and kilobytes of memory of a node."""
    process = pathlib.Path(f"/proc/{cluster.running[node].pid}")
    lines = (process / "status").read_text().splitlines()
    threads = next(int(line.split()[1]) for line in lines if line.startswith("Threads"))
    return threads, len(os.listdir(process / "fd")), cluster.memory(node)[0]


def print_counts(cluster):
    names = ("threads", "descriptors", "kB of memory")
    for name, counts in zip(names, zip(*(counts_of(cluster, node) for node in cluster.running))):
        say(f"{name:<14} a node: {statistics.median(counts):>8.0f}, at most {max(counts):>8}, together {sum(counts):>10}")


def rate_of(load, seconds):
    """Answers a second of all clients together."""
    before, start = load.total(), time.monotonic()
    time.sleep(seconds)
    return (load.total() - before) / (time.monotonic() - start)


def go(cluster, seconds, verdicts):
    start = time.monotonic()
    cluster.start_all()
    cluster.wait_until_ready(120)
    say(f"{len(cluster.nodes)} nodes are ready after {time.monotonic() - start:.1f} s")
    staying, lost = list(cluster.nodes)[:-LOST], list(cluster.nodes)[-LOST:]
    load = Load(cluster, staying, 1)
    say(f"with all: {rate_of(load, seconds):.0f} answers a second")
    print_counts(cluster)
    for node in lost:
        cluster.kill(node)
    say(f"without {LOST}: {rate_of(load, seconds):.0f} answers a second")
    start = time.monotonic()
    for node in lost:
        cluster.start(node)
    for node in lost:
        Session(cluster.address(node), 950_000 + node).ask(["collect"], 60)
    say(f"the {LOST} answer again after {time.monotonic() - start:.1f} s")
    say(f"with all again: {rate_of(load, seconds):.0f} answers a second")
    load.end()
    verdicts.add(not load.faults, f"no client was told anything else: {load.faults[:1]}")
    verdicts.add(not cluster.has_ended(), f"no node ended: {cluster.has_ended()}")
    verdicts.add(min(load.answers.values()) > 0, "each client was answered")


def main():
    end_on_signals()
    count = int(sys.argv[2]) if len(sys.argv) > 2 else 33
    seconds = float(sys.argv[3]) if len(sys.argv) > 3 else 10.0
    tempfile.tempdir = "/dev/shm"
    verdicts = Verdicts()
    with Cluster(sys.argv[1], count, beta="2/3", share=32) as cluster:
        go(cluster, seconds, verdicts)
    sys.exit(not verdicts.is_good)


if __name__ == "__main__":
    main()
