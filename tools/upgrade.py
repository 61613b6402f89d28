#!/usr/bin/env python3
"""Upgrades a cluster under load from an older program to this one, node by node, and checks what clients are told.

    upgrade.py crates/ccnode/out/ccnode OLD [SECONDS]

Three nodes, of which an operation waits for two, run OLD. Each is ended and started again with this program, which speaks
as 0.1 did, and then each again without that, SECONDS (3) apart. Clients and checks are those of kill_cluster.py. The
folders are in memory. The status is 1 where something isn't so."""
import os
import sys
import tempfile
import threading
import time

from kill_cluster import PATIENCE, Told, check_end, start_clients
from nodes import Cluster, end_on_signals, say

ROUNDS = (("0.1", "this program, which speaks as 0.1 did"), ("now", "this program"))


class Upgrading(Cluster):
    """Nodes that are started with a program of their own, and that speak so, where it knows of that."""

    def __init__(self, old, new, **others):
        super().__init__(old, 3, beta="2/3", name=None, **others)
        self.new, self.speech = os.path.realpath(new), {}

    def run_words(self, node):
        words = super().run_words(node)
        return words + (["--speaks", self.speech[node]] if node in self.speech else [])

    def move_on(self, node, speech):
        """Ends a node, and starts it with the new program."""
        self.kill(node)
        self.speech[node], old = speech, self.program
        try:
            self.program = self.new
            self.start(node)
        finally:
            self.program = old


def upgrade(cluster, told, seconds):
    for speech, name in ROUNDS:
        for node in cluster.nodes:
            time.sleep(seconds)
            cluster.move_on(node, speech)
        time.sleep(seconds)
        say(f"{name}: {sum(told.writes.values())} writes and {told.collects} collects answered")


def main():
    end_on_signals()
    os.environ.pop("SPEAKS", None)
    new, old = sys.argv[1:3]
    seconds = float(sys.argv[3]) if len(sys.argv) > 3 else 3.0
    tempfile.tempdir = "/dev/shm"
    over = threading.Event()
    with Upgrading(old, new) as cluster:
        cluster.start_all()
        cluster.wait_until_ready()
        told = Told(cluster.nodes, PATIENCE)
        clients = start_clients(cluster, told, over)
        try:
            upgrade(cluster, told, seconds)
            over.set()
            for client in clients:
                client.join(told.patience + 5)
            check_end(cluster, told)
        finally:
            over.set()
            for client in clients:
                client.session.is_over = True
        say(f"faults: {len(told.faults)}")
    sys.exit(bool(told.faults))


if __name__ == "__main__":
    main()
