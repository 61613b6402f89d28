#!/usr/bin/env python3
"""Kills two of three idle nodes, and checks that the third one notices, though nobody asks it anything.

usage: idle_cluster.py PROGRAM

Three nodes with --beta 2/3, of which two have to answer. `/readyz` and `ccnode status` of node 1 have to say that it is
ready while all three are idle; within five seconds that it isn't, and why, once the two others are killed; within two
seconds that it is, once one of them is started again; and within five seconds that it isn't where it is started alone. It
takes half a minute, ends all that it started, and its status is 1 where one of these isn't so.
"""
import http.client
import re
import sys
import time

import nodes
from look import WatchedCluster
from nodes import LOOPBACK, Verdicts

# Seconds: how long nodes are idle, and within what time a change has to show.
IDLE, NOTICED, BACK = 8, 5, 2
WHY = re.compile(r"2 of 3 members are silent( or absent)?, and 2 have to answer")
# What a node says before it has looked at itself.
BEGUN = "it has just been started"


def readyz(cluster, node=1):
    """The status of the page and what it says; 0 where it doesn't answer."""
    page = http.client.HTTPConnection(LOOPBACK, cluster.pages[node], timeout=2)
    try:
        page.request("GET", "/readyz")
        answer = page.getresponse()
        return answer.status, answer.read().decode().strip()
    except (OSError, http.client.HTTPException):
        return 0, "nothing"
    finally:
        page.close()


def status(cluster, node=1):
    """The status of the command, and the line of it that tells whether the node is ready."""
    code, printed = cluster.does(["status", f"{LOOPBACK}:{cluster.pages[node]}"])
    line = next((line for line in printed.splitlines() if line.startswith("ready")), printed)
    return code, re.sub(r"\s+", " ", line)


def wait_for(cluster, wanted, seconds):
    """After how many seconds the page says so, or None, and what it says then."""
    start = time.monotonic()
    while (told := readyz(cluster))[0] != wanted or told[1] == BEGUN:
        if time.monotonic() - start > seconds:
            return None, told[1]
        time.sleep(0.05)
    return time.monotonic() - start, told[1]


def expect_ready(verdicts, cluster, when, seconds):
    took, told = wait_for(cluster, 200, seconds)
    code, line = status(cluster)
    is_good = took is not None and code == 0 and line == "ready yes"
    verdicts.add(is_good, f"{when}: {shown(took, seconds)} `/readyz` says {told!r}, and status {code} {line!r}")


def expect_not_ready(verdicts, cluster, when):
    took, told = wait_for(cluster, 503, NOTICED)
    code, line = status(cluster)
    is_good = took is not None and WHY.search(told) and code == 1 and line.startswith("ready no") and WHY.search(line)
    verdicts.add(is_good, f"{when}: {shown(took, NOTICED)} `/readyz` says {told!r}, and status {code} {line!r}")


def shown(took, seconds):
    return f"still after {seconds} s" if took is None else f"after {took:.1f} s"


def try_idle(verdicts, cluster):
    """Whether node 1 goes on saying that it is ready while nobody asks anything."""
    end, told = time.monotonic() + IDLE, set()
    while time.monotonic() < end:
        told.add(readyz(cluster)[0])
        time.sleep(0.2)
    verdicts.add(told == {200}, f"three idle nodes, for {IDLE} s: `/readyz` says {sorted(told)}")


def main(program):
    verdicts = Verdicts()
    with WatchedCluster(program, 3, beta="2/3") as cluster:
        cluster.start_all()
        cluster.wait_until_ready()
        expect_ready(verdicts, cluster, "three nodes that began", NOTICED)
        try_idle(verdicts, cluster)
        for node in (2, 3):
            cluster.kill(node)
        expect_not_ready(verdicts, cluster, "two of three were killed")
        cluster.start(2)
        expect_ready(verdicts, cluster, "one of them was started again", BACK)
    with WatchedCluster(program, 3, beta="2/3") as cluster:
        cluster.start(1)
        expect_not_ready(verdicts, cluster, "a node was started alone")
        cluster.start(3)
        expect_ready(verdicts, cluster, "another one was started", BACK)
    sys.exit(not verdicts.is_good)


if __name__ == "__main__":
    if len(sys.argv) != 2:
        sys.exit(__doc__)
    nodes.end_on_signals()
    main(sys.argv[1])
