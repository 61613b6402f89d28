#!/usr/bin/env python3
"""Kills one of thirteen nodes under load, leaves it dead for minutes, and checks that the others can be freed of it.

    dead_member.py crates/ccnode/out/ccnode [MINUTES [return]]

Each of twelve nodes has six clients, an operation waits for 3/5 of the members, and node 13 is killed for MINUTES (15). Once
in thirty seconds is printed what was answered, and of each node its descriptors, its threads and the most connections that
one peer has to it; no node may ever have more than two of one peer. Then each node is told to retire node 13, which has
to be answered within two seconds; or, with the word `return`, node 13 is started again. Each node that runs has to serve a
store within five seconds after that. The load goes on all the while. The status is 1 where something isn't so.
"""
import collections
import os
import pathlib
import sys
import threading
import time

from nodes import Cluster, Load, NoAnswer, Session, Verdicts, end_on_signals, say

COUNT, BETA, CLIENTS = 13, "3/5", 6
DEAD = COUNT
LIVING = range(1, COUNT)
MOST_OF_A_PEER = 2
RETIRED_WITHIN, SERVES_WITHIN = 2.0, 5.0
SAMPLE, STEP = 1.0, 30.0
# Whose the other end of a connection is, where it isn't a node's.
CLIENT, UNKNOWN = "clients", "nobody who was seen"
# The other end of a socket that listens.
NO_END = "00000000:0000"


def sockets_of(pid):
    """The inodes of a process's sockets, and how many descriptors it has."""
    inodes, files = set(), 0
    for file in pathlib.Path(f"/proc/{pid}/fd").iterdir():
        files += 1
        try:
            kind, _, inode = os.readlink(file).partition(":[")
        except OSError:
            continue
        if kind == "socket":
            inodes.add(inode.rstrip("]"))
    return inodes, files


def tcp_rows():
    """Of each socket of TCP, by its inode: its own end and the other end, as the system writes them."""
    rows = [line.split() for line in pathlib.Path("/proc/net/tcp").read_text().splitlines()[1:]]
    return {row[9]: (row[1], row[2]) for row in rows if row[9] != "0"}


class Connections(threading.Thread):
    """Looks once a second which connections each node has accepted, by whose they are. One that its peer has closed is told
    by who was last seen at its other end."""

    def __init__(self, cluster):
        super().__init__(daemon=True)
        self.is_over = threading.Event()
        # Whose each connection is, by the two ends of it, its own first.
        self.cluster, self.owners = cluster, {}
        # Of each node: the counts by owner, its descriptors and its threads as last seen, and the most of one peer ever.
        self.counts, self.files, self.threads = {}, {}, {}
        self.most = {node: (0, 0) for node in LIVING}

    def run(self):
        while not self.is_over.wait(SAMPLE):
            self.look()

    def end(self):
        self.is_over.set()
        self.join()

    def look(self):
        rows, held, files, threads = tcp_rows(), {}, {}, {}
        for node, process in list(self.cluster.running.items()):
            try:
                inodes, files[node] = sockets_of(process.pid)
                threads[node] = len(os.listdir(f"/proc/{process.pid}/task"))
            except OSError:
                continue
            held[node] = [rows[inode] for inode in inodes if inode in rows]
        self.learn_owners(rows, held)
        self.files, self.threads = files, threads
        self.counts = {node: self.count(node, ends) for node, ends in held.items()}

    def learn_owners(self, rows, held):
        mine, _ = sockets_of(os.getpid())
        self.owners.update({rows[inode]: CLIENT for inode in mine if inode in rows})
        for node, ends in held.items():
            self.owners.update(dict.fromkeys(ends, node))

    def count(self, node, ends):
        """The connections at the node's own port, by owner."""
        port = f":{self.cluster.ports[node]:04X}"
        others = [(other, own) for own, other in ends if own.endswith(port) and other != NO_END]
        counts = collections.Counter(self.owners.get(ends, UNKNOWN) for ends in others)
        if node in self.most:
            most = max((counts[peer], peer) for peer in self.cluster.nodes)
            self.most[node] = max(self.most[node], most)
        return counts

    def tell(self):
        """Each node's descriptors, threads and connections, as last seen."""
        all_counts = self.counts
        tell_row("descriptors", self.files)
        tell_row("threads", self.threads)
        for owner in (CLIENT, UNKNOWN):
            tell_row(f"connections of {owner}", {node: counts[owner] for node, counts in all_counts.items()})
        of_peers = {node: [counts[peer] for peer in self.cluster.nodes] for node, counts in all_counts.items()}
        tell_row("the most connections of one peer", {node: max(counts) for node, counts in of_peers.items()})
        for node, counts in of_peers.items():
            if max(counts) > MOST_OF_A_PEER:
                say(f"    node {node}, by peer: {' '.join(map(str, counts))}")


def tell_row(name, of_nodes):
    say(f"    {name}: {' '.join(str(of_nodes[node]) for node in sorted(of_nodes))}")


def go_on(load, connections, minutes):
    """Prints what is seen once in thirty seconds, until that many minutes are over."""
    start = time.monotonic()
    end = start + 60 * minutes
    while time.monotonic() < end:
        before = load.total()
        time.sleep(max(0.0, min(STEP, end - time.monotonic())))
        refusals, breaks = (sum(getattr(it, name) for it in load.sessions) for name in ("refusals", "breaks"))
        say(f"  {time.monotonic() - start:.0f} s: {load.total() - before} operations answered since the last line; "
            f"refused so far: {refusals}, connections that broke: {breaks}")
        connections.tell()


def retire(cluster, verdicts):
    for node in LIVING:
        start = time.monotonic()
        line = cluster.does(["retire", cluster.address(node), str(DEAD)])[1]
        took = time.monotonic() - start
        is_good = line == f"retired {DEAD}" and took <= RETIRED_WITHIN
        verdicts.add(is_good, f"retire at node {node}: {line} after {took:.1f} s")


def check_service(cluster, verdicts):
    """A client of each node that runs stores, all at once."""
    took = {}

    def store(node):
        start, session = time.monotonic(), Session(cluster.address(node), 9_000 + node, patience=30.0)
        try:
            session.ask(["store", "served"], 30)
            took[node] = time.monotonic() - start
        except NoAnswer:
            pass
        session.close()

    threads = [threading.Thread(target=store, args=(node,)) for node in cluster.running]
    for thread in threads:
        thread.start()
    for node, thread in zip(cluster.running, threads):
        thread.join()
        told = f"stores after {took[node]:.1f} s" if node in took else "doesn't store in 30 s"
        verdicts.add(took.get(node, 30) <= SERVES_WITHIN, f"node {node} {told}")


def main():
    end_on_signals()
    program, minutes = sys.argv[1], float(sys.argv[2]) if len(sys.argv) > 2 else 15.0
    comes_back, verdicts = sys.argv[3:] == ["return"], Verdicts()
    with Cluster(program, COUNT, beta=BETA) as cluster:
        cluster.start_all()
        cluster.wait_until_ready(60)
        load, connections = Load(cluster, LIVING, CLIENTS), Connections(cluster)
        connections.start()
        try:
            go_on(load, connections, 0.25)
            cluster.kill(DEAD)
            say(f"node {DEAD} is killed")
            go_on(load, connections, minutes)
            if comes_back:
                cluster.start(DEAD)
                say(f"node {DEAD} is started again")
            else:
                retire(cluster, verdicts)
            check_service(cluster, verdicts)
            go_on(load, connections, 0.5)
        finally:
            load.end()
            connections.end()
        say("connections of one peer:")
        for node, (count, peer) in connections.most.items():
            verdicts.add(count <= MOST_OF_A_PEER, f"node {node}: at most {count} of one peer, node {peer}")
        for fault in load.faults:
            verdicts.add(False, fault)
        for node, text in cluster.has_ended().items():
            verdicts.add(False, f"node {node} ended: {text}")
    sys.exit(not verdicts.is_good)


if __name__ == "__main__":
    main()
