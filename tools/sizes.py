#!/usr/bin/env python3
"""Measures clusters of several sizes, and prints what an operation costs each node of them. It fails nothing.

    sizes.py crates/ccnode/out/ccnode 3,5,9,17,33 [SECONDS]

Of each size there are two rows a command: of one client, and of one client at each node. Nodes are of beta 2/3 and share
32. The folders are in memory (/dev/shm), and then on the disk (TMPDIR). A row takes SECONDS (5). SPEAKS=0.1 has all nodes
speak as programs up to 0.1 do."""
import os
import sys
import tempfile
import time

from load import Asker, percentile, run_clients
from nodes import Cluster, end_on_signals, say

WORDS = {"store": ["store", "load-0123456789"], "collect": ["collect"]}


def measure(cluster, kind, places, seconds, session):
    """Operations a second, their p50 in microseconds, and the processor time of one over all nodes, in microseconds."""
    askers = [Asker(cluster.address(node), session + place, WORDS[kind]) for place, node in enumerate(places)]
    before = cluster.processor_seconds()
    took, passed = run_clients(askers, seconds)
    spent = cluster.processor_seconds() - before
    for asker in askers:
        asker.socket.close()
    return len(took) / passed, percentile(took, 0.5), spent / max(1, len(took)) * 1e6


def print_rows(program, folder, count, seconds):
    session = 1
    with Cluster(program, count, beta="2/3", share=32) as cluster:
        cluster.start_all()
        cluster.wait_until_ready(60)
        time.sleep(2)
        for places in ([1], list(cluster.nodes)):
            for kind in WORDS:
                rate, p50, processor = measure(cluster, kind, places, seconds, session)
                session += len(places)
                say(
                    f"{folder:<8}{count:>6}{len(places):>9}  {kind:<8}{rate:>9.0f}{p50:>10.0f}{processor / 1000:>11.2f}"
                    f"{processor / 1000 / count:>10.3f}"
                )
        for node, text in cluster.has_ended().items():
            say(f"node {node} ended: {text}")


def main():
    end_on_signals()
    program, counts = sys.argv[1], [int(word) for word in sys.argv[2].split(",")]
    seconds = float(sys.argv[3]) if len(sys.argv) > 3 else 5.0
    say("times of an operation: p50 in microseconds, the processors in milliseconds over all nodes, and per node")
    say("folders  nodes  clients  kind          a s       p50  processor  per node")
    for folder, path in (("memory", "/dev/shm"), ("disk", tempfile.gettempdir())):
        tempfile.tempdir = path
        for count in counts:
            print_rows(program, folder, count, seconds)


if __name__ == "__main__":
    main()
