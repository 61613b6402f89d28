#!/usr/bin/env python3
"""Takes snapshots of clusters whose nodes are killed and whose messages are held back, and looks for an order of all that
was done.

    snapshots.py crates/ccnode/out/ccnode [SECONDS]
    snapshots.py crates/ccnode/out/ccnode rates

Three and five nodes, with shares 1 and 32, SECONDS (60) each. At each node one client writes some times a second, and four
others collect all the time. Two collects in a row of one client that show the same are a snapshot. Of each run it looks for
an order of all writes and snapshots in which what was answered before another one was asked comes first, and each snapshot
shows just the writes before it. The status is 1 where a run has none. It is 1, too, where each run would have such an order
with every collect taken for a snapshot: then the search would find one anywhere. At the end `ccnode ask` takes a snapshot at
each node, and none at a server whose collects never agree. With `rates` it prints how many collects a snapshot takes while
others write so many times a second.
"""
import bisect
import random
import re
import socket
import statistics
import struct
import sys
import threading
import time
from dataclasses import dataclass

import nodes
from nodes import NoAnswer, Session, Verdicts, client, say
from soak import RelayedCluster

SECONDS, READERS = 60, 4
# A node is away for up to so many seconds, once in so many.
AWAY, BETWEEN_KILLS = 0.3, 3.0
# What one node writes to another is held back for up to so many milliseconds, and mostly for few.
DELAY_MS = 40
PATIENCE = 60.0
# Nodes, beta, share, and for up to how many seconds a writer pauses: with share 1 a collect waits for those before it.
CLUSTERS = [(3, "2/3", 1, 0.3), (3, "2/3", 32, 0.1), (5, "3/5", 1, 0.6), (5, "3/5", 32, 0.05)]
ROW = re.compile(r"(\d+):(\d+)=")


@dataclass
class Write:
    """The write of a node with that number, and between which moments it was done."""

    node: int
    number: int
    start: float
    end: float = float("inf")


@dataclass
class Reading:
    """What was read: of each node the number of its last write. And between which moments."""

    view: dict
    start: float
    end: float


def snapshots_in(collects):
    """The snapshots among the collects of one client: two in a row that show the same."""
    return [
        Reading(late.view, early.start, late.end) for early, late in zip(collects, collects[1:]) if early.view == late.view
    ]


def is_within(view, other):
    return all(number <= other.get(node, 0) for node, number in view.items())


def in_order(writes, readings):
    """All of them in the one order that there can be, but for what may change places; and the two views that have none."""
    chain = sorted(readings, key=lambda reading: (sum(reading.view.values()), reading.start))
    for early, late in zip(chain, chain[1:]):
        if not is_within(early.view, late.view):
            return None, (early.view, late.view)
    # A write stands before the first reading that shows it, and behind those that don't.
    shown = {node: [reading.view.get(node, 0) for reading in chain] for node in {write.node for write in writes}}
    keys, latest = [], {}
    for write in sorted(writes, key=lambda write: (write.node, write.number)):
        # The writes of a node keep their order.
        latest[write.node] = max(write.start, latest.get(write.node, 0))
        keys.append((bisect.bisect_left(shown[write.node], write.number), 0, latest[write.node], write))
    keys += [(place, 1, 0, reading) for place, reading in enumerate(chain)]
    return [key[3] for key in sorted(keys, key=lambda key: key[:3])], None


def fault_of(writes, readings):
    """Why there is no order of these writes and readings. None where there is one."""
    asked = {}
    for write in writes:
        asked[write.node] = max(write.number, asked.get(write.node, 0))
    for reading in readings:
        if not is_within(reading.view, asked):
            return f"{reading.view} shows what nobody wrote"
    order, apart = in_order(writes, readings)
    if apart:
        return f"of {apart[0]} and {apart[1]} none has all that the other one has"
    latest = None
    for one in order:
        if latest and one.end < latest.start:
            return f"{one} ended before {latest} began, and stands behind it"
        if not latest or latest.start < one.start:
            latest = one
    return None


class History:
    """What clients did in a cluster, by threads of their own, until it is over."""

    def __init__(self, cluster, pause):
        self.cluster, self.pause, self.is_over = cluster, pause, threading.Event()
        self.writes, self.collects, self.faults = [], [], []
        self.threads = []
        for node in cluster.nodes:
            self.begin(self.write, node)
            for place in range(READERS):
                self.begin(self.collect, node, place)

    def begin(self, work, *words):
        thread = threading.Thread(target=self.do, args=(work, *words))
        self.threads.append(thread)
        thread.start()

    def do(self, work, *words):
        try:
            work(*words)
        except NoAnswer as error:
            self.faults.append(str(error))

    def write(self, node):
        session, number = Session(self.cluster.address(node), 100 + node), 0
        while not self.is_over.is_set():
            number += 1
            write = Write(node, number, time.monotonic())
            self.writes.append(write)
            session.ask(["store", f"w{number}"], PATIENCE)
            write.end = time.monotonic()
            time.sleep(random.uniform(0, self.pause))

    def collect(self, node, place):
        session, collects = Session(self.cluster.address(node), 10 * (node + 20) + place), []
        self.collects.append(collects)
        while not self.is_over.is_set():
            start = time.monotonic()
            answer = session.ask(["collect"], PATIENCE)
            view = {int(row): int(number) for row, number in ROW.findall(answer)}
            collects.append(Reading(view, start, time.monotonic()))

    def end(self):
        self.is_over.set()
        for thread in self.threads:
            thread.join()


def disturb(cluster, seconds):
    """Kills a node again and again, and starts it. How often."""
    end, kills = time.monotonic() + seconds, 0
    while time.monotonic() + BETWEEN_KILLS < end:
        time.sleep(random.uniform(0, BETWEEN_KILLS))
        node = random.choice(cluster.nodes)
        cluster.kill(node)
        time.sleep(random.uniform(0, AWAY))
        cluster.start(node)
        kills += 1
    time.sleep(max(0.0, end - time.monotonic()))
    return kills


def run(program, count, beta, share, pause, seconds):
    """The history of a cluster, and how often a node of it was killed."""
    with RelayedCluster(program, count, beta, share=share) as cluster:
        cluster.start_relays()
        cluster.start_all()
        cluster.wait_until_ready()
        cluster.command(f"delay {DELAY_MS}")
        history = History(cluster, pause)
        try:
            kills = disturb(cluster, seconds)
        finally:
            history.end()
        for node in cluster.nodes:
            history.faults += faults_of_ask(cluster, node)
        return history, kills


def faults_of_ask(cluster, node):
    """`ccnode ask` takes a snapshot where nobody writes, and reads off it."""
    address = cluster.address(node)
    for words, wanted in [(["snapshot"], "Seen"), (["readmax", "--snapshot"], "Max 0")]:
        status, printed = cluster.does(["ask", address, "300", *words, "--timeout", "20"])
        if status or not printed.startswith(wanted) or not printed.endswith("collects 2"):
            yield f"ask {' '.join(words)} ended with {status}: {printed}"


class Restless:
    """A server that answers each collect with another view, as a node does in whose cluster others write all the time."""

    def __init__(self):
        self.listener = socket.create_server((nodes.LOOPBACK, 0))
        self.address = f"{nodes.LOOPBACK}:{self.listener.getsockname()[1]}"
        threading.Thread(target=self.serve, daemon=True).start()

    def serve(self):
        while True:
            connection, _ = self.listener.accept()
            with connection:
                while self.answer(connection):
                    time.sleep(0.01)

    @staticmethod
    def answer(connection):
        try:
            frame = client.read_frame(connection)
        except OSError:
            return False
        session, request = struct.unpack(">QQ", frame[1:17])
        if request == 0:
            told = b"\x05" + struct.pack(">QQBQ", session, 0, client.STALE, 0)
        elif frame[17] == client.COMMANDS.index("collect") + 1:
            row = struct.pack(">IQB", 1, request, 0) + struct.pack(">QBB", 0, 0, 0)
            told = b"\x04" + struct.pack(">QQBH", session, request, 2, 1) + row
        else:
            told = b"\x04" + struct.pack(">QQB", session, request, 4) + b"\x00"
        connection.sendall(struct.pack(">I", len(told)) + told)
        return True


def judge_none(program, verdicts):
    """Where no two collects agree, no snapshot is told."""
    restless = Restless()
    with RelayedCluster(program, 1) as cluster:
        for form, wanted in [([], "no snapshot"), (["--json"], '{"no_snapshot":true}')]:
            words = ["ask", restless.address, "7", "snapshot", "--timeout", "1", *form]
            status, printed = cluster.does(words)
            lines = printed.splitlines()
            is_so = status == 1 and lines[0] == wanted and re.search(r"no two in a row of \d+ collects agree", lines[-1])
            verdicts.add(bool(is_so), f"collects that never agree: {printed}")


def judge(verdicts, name, history, kills):
    """Whether the run has an order. Whether it has one with each collect taken for a snapshot."""
    snapshots = [one for collects in history.collects for one in snapshots_in(collects)]
    collects = [one for collects in history.collects for one in collects]
    for fault in history.faults:
        verdicts.add(False, f"{name}: {fault}")
    fault = fault_of(history.writes, snapshots)
    told = f"{len(history.writes)} writes, {len(snapshots)} snapshots among {len(collects)} collects, {kills} kills"
    verdicts.add(fault is None and len(snapshots) > 0, f"{name}: {told}: {fault or 'all in one order'}")
    loose = fault_of(history.writes, collects)
    say(f"  with each collect taken for a snapshot: {loose or 'all in one order'}")
    return loose is None


# How many writes a second there are meanwhile, by how many clients of each node, and for how many seconds snapshots are taken.
RATES, WRITERS, MEASURED = [0, 10, 100, 300, 1000], 4, 10.0


def write_at(rate, address, session, over):
    """Stores so many times a second."""
    client_of_it, due = Session(address, session), time.monotonic() + random.uniform(0, 1 / rate)
    while not over.wait(max(0.0, due - time.monotonic())):
        client_of_it.ask(["store", "w"], PATIENCE)
        due = max(due + 1 / rate, time.monotonic() - 1)


def collects_until_two_agree(session, seconds):
    """How many collects it takes until two in a row show the same; and whether any two did in time."""
    end, before, count = time.monotonic() + seconds, None, 0
    while time.monotonic() < end:
        view = ROW.findall(session.ask(["collect"], PATIENCE))
        count += 1
        if view == before:
            return count, True
        before = view
    return count, False


def writes_in(session):
    """How many writes there have been."""
    return sum(int(number) for _, number in ROW.findall(session.ask(["collect"], PATIENCE)))


def measure(cluster, rate):
    """The collects of each snapshot that was taken while others wrote, how many were given up, and how many writes there were."""
    over = threading.Event()
    places = [(node, place) for node in cluster.nodes for place in range(WRITERS)] if rate else []
    threads = [
        threading.Thread(target=write_at, args=(rate / len(places), cluster.address(node), 100 + place, over))
        for node, place in places
    ]
    for thread in threads:
        thread.start()
    session, counts, given_up = Session(cluster.address(1), 200), [], 0
    before, start = writes_in(session), time.monotonic()
    while time.monotonic() - start < MEASURED:
        count, is_taken = collects_until_two_agree(session, MEASURED)
        counts += [count] if is_taken else []
        given_up += not is_taken
    took, writes = time.monotonic() - start, writes_in(session) - before
    over.set()
    for thread in threads:
        thread.join()
    return counts, given_up, writes / took, took


def print_rates(program):
    """A table of how many collects a snapshot takes."""
    say("| Writes a second | Snapshots a second | Collects of one, mean | Median | 99 of 100 within | Most | None within 10 s |")
    say("|---|---|---|---|---|---|---|")
    with nodes.Cluster(program, 3, "2/3", share=32) as cluster:
        cluster.start_all()
        cluster.wait_until_ready()
        for rate in RATES:
            counts, given_up, writes, took = measure(cluster, rate)
            few = sorted(counts) or [0]
            rows = [
                f"{writes:.0f}", f"{len(counts) / took:.0f}", f"{statistics.mean(few):.1f}", few[len(few) // 2],
                few[len(few) * 99 // 100], few[-1], given_up,
            ]
            say(f"| {' | '.join(map(str, rows))} |")


def main(program, seconds):
    verdicts, has_order = Verdicts(), []
    for count, beta, share, pause in CLUSTERS:
        history, kills = run(program, count, beta, share, pause, seconds)
        has_order.append(judge(verdicts, f"{count} nodes, share {share}", history, kills))
    verdicts.add(not all(has_order), f"without an order of all collects: {has_order.count(False)} of {len(has_order)} runs")
    judge_none(program, verdicts)
    sys.exit(not verdicts.is_good)


if __name__ == "__main__":
    if len(sys.argv) not in (2, 3):
        sys.exit(__doc__)
    nodes.end_on_signals()
    if sys.argv[2:] == ["rates"]:
        print_rates(sys.argv[1])
    else:
        main(sys.argv[1], float(sys.argv[2]) if len(sys.argv) == 3 else SECONDS)
