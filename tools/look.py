#!/usr/bin/env python3
"""Runs three nodes on loopback, each with a status page and an address for HTTP, stores a few values, and prints where all of
that is: look.py PROGRAM

It runs until Ctrl-C, and ends all that it started.
"""
import json
import signal
import sys
import time
import urllib.request

import nodes
from nodes import LOOPBACK, say

# The node that stores, and what.
VALUES = [
    (1, ["store", "colour=blue"]), (1, ["add", "7"]), (1, ["add", "9"]), (1, ["flag"]),
    (2, ["store", "leader=node-2"]), (2, ["max", "1200"]),
    (3, ["store", "build 41"]), (3, ["max", "88"]), (3, ["add", "3"]),
]


class WatchedCluster(nodes.Cluster):
    """A cluster each of whose nodes has a status page."""

    def __init__(self, program, count, **settings):
        super().__init__(program, count, **settings)
        ports = nodes.free_ports(2 * count)
        self.ports, self.pages = (dict(zip(self.nodes, half)) for half in (ports[:count], ports[count:]))

    def run_words(self, node):
        return [*super().run_words(node), "--status", f"{LOOPBACK}:{self.pages[node]}"]

    def page_address(self, node):
        return LOOPBACK, self.pages[node]

    def status(self, node, seconds=5):
        """What a node tells of itself."""
        url = f"http://{LOOPBACK}:{self.pages[node]}/status.json"
        with urllib.request.urlopen(url, timeout=seconds) as answer:
            return json.load(answer)


class ServingCluster(WatchedCluster):
    """A cluster each of whose nodes takes requests over HTTP too."""

    def __init__(self, program, count, **settings):
        super().__init__(program, count, **settings)
        # All ports are chosen together, so that none is given twice.
        ports = nodes.free_ports(3 * count)
        self.ports, self.pages, self.web = (dict(zip(self.nodes, ports[place::3])) for place in range(3))

    def run_words(self, node):
        return [*super().run_words(node), "--http", f"{LOOPBACK}:{self.web[node]}"]


def store_values(cluster):
    for place, (node, words) in enumerate(VALUES):
        session = nodes.Session(cluster.address(node), 50 + place)
        session.ask(words)
        session.close()


def main(program):
    with ServingCluster(program, 3, beta="2/3") as cluster:
        cluster.start_all()
        cluster.wait_until_ready()
        store_values(cluster)
        for node in cluster.nodes:
            say(f"node {node}: http://{LOOPBACK}:{cluster.pages[node]}/ and clients at {cluster.address(node)}")
            say(f"        curl http://{LOOPBACK}:{cluster.web[node]}/v1/view")
        say("Ctrl-C ends all three")
        while not cluster.has_ended():
            time.sleep(1)
        sys.exit(f"ended: {cluster.has_ended()}")


if __name__ == "__main__":
    if len(sys.argv) != 2:
        sys.exit(__doc__)
    nodes.end_on_signals()
    signal.signal(signal.SIGINT, lambda *_: sys.exit(0))
    main(sys.argv[1])
