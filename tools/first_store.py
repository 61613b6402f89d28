#!/usr/bin/env python3
"""Kills a node again and again, starts it, and times the first store that it is asked then.

usage: first_store.py PROGRAM [KILLS]

Three nodes with --beta 2/3. Before each kill node 1 answers stores of node 2, of which node 3 needn't hear at once. Node 1 is
killed then, is started again, and is asked to store at once. It prints how long each of these stores took, and its status is 1
where one took longer than seven tenths of a second: each node sends again what a peer may lack once it has connected to it.
"""
import sys
import time

import nodes
from nodes import Cluster, Verdicts

KILLS, SECONDS = 12, 0.7
# How many stores of node 2 node 1 answers before each kill.
ANSWERED = 3


def store(cluster, node, session, text):
    """Whether it was stored, and the seconds that it took."""
    start = time.monotonic()
    status, printed = cluster.does(["ask", cluster.address(node), session, "store", text])
    return status == 0 and printed == "Stored", time.monotonic() - start


def main(program, kills):
    verdicts, seconds = Verdicts(), []
    with Cluster(program, 3, beta="2/3") as cluster:
        cluster.start_all()
        cluster.wait_until_ready()
        for kill in range(kills):
            for number in range(ANSWERED):
                store(cluster, 2, "5", f"{kill}-{number}")
            cluster.kill(1)
            cluster.start(1)
            is_stored, took = store(cluster, 1, "7", str(kill))
            seconds.append(took)
            if not is_stored:
                verdicts.add(False, f"the store after kill {kill + 1} wasn't answered Stored")
    seconds.sort()
    told = ", ".join(f"{it * 1000:.0f}" for it in seconds)
    verdicts.add(seconds[-1] <= SECONDS, f"{kills} first stores after a start took {told} ms")
    sys.exit(not verdicts.is_good)


if __name__ == "__main__":
    if len(sys.argv) not in (2, 3):
        sys.exit(__doc__)
    nodes.end_on_signals()
    main(sys.argv[1], int(sys.argv[2]) if len(sys.argv) == 3 else KILLS)
