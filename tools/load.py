#!/usr/bin/env python3
"""Measures three nodes on loopback under 1, 8, 64 and 192 clients, and prints it beside the disk's own syncs. It fails
nothing.

    load.py crates/ccnode/out/ccnode [SECONDS [PAUSE [SHARE]]]

Each client has a session and a connection of its own, spread over the nodes, so that 192 are 64 a node, and asks again as
soon as it was answered. Each count stores for SECONDS (10), and then collects for as long. A store is three commits of
two syncs, one after the other, a collect five. With PAUSE (0) each sync takes so many microseconds more, those of the
loops too, as it would on a slower disk; that needs a C compiler. Up to SHARE (1) asks of a node begin together, at most
32. TMPDIR says where the nodes' folders are made.
"""
import collections
import os
import selectors
import socket
import statistics
import sys
import time
from concurrent.futures import ThreadPoolExecutor

from nodes import Cluster, client, end_on_signals, say

COUNTS = (1, 8, 64, 192)
ANSWER, REFUSAL = "answer", "refusal"
# A request that was refused is sent again after so many seconds.
AGAIN_AFTER = 0.001
SYNCS = {"store": 6, "collect": 10}
SYNC_SECONDS = 2.0


def sync(file, pause):
    if pause:
        time.sleep(pause / 1e6)
    os.fdatasync(file)


def write_and_sync(folder, name, pause):
    """What a commit does to its file, in a plain loop: a record is appended and synced, one byte before it is written over
    and synced. Microseconds a write with its sync, over the whole loop."""
    path, record, place, syncs = os.path.join(folder, name), bytes(150), 1, 0
    file = os.open(path, os.O_CREAT | os.O_RDWR)
    start = time.perf_counter()
    while time.perf_counter() - start < SYNC_SECONDS:
        os.pwrite(file, record, place)
        sync(file, pause)
        os.pwrite(file, b"\xa5", place - 1)
        sync(file, pause)
        place, syncs = place + len(record), syncs + 2
    took = time.perf_counter() - start
    os.close(file)
    os.unlink(path)
    return took / syncs * 1e6


def sync_times(folder, pause):
    """Microseconds of a sync alone, and of one while three loops run beside each other, as three nodes on one disk do."""
    alone = write_and_sync(folder, "alone", pause)
    with ThreadPoolExecutor(3) as pool:
        three = pool.map(write_and_sync, [folder] * 3, ["beside-1", "beside-2", "beside-3"], [pause] * 3)
        return alone, sum(three) / 3


class Asker:
    """A client that doesn't block: it asks, and takes what comes."""

    def __init__(self, address, session, words):
        host, port = address.rsplit(":", 1)
        self.socket = socket.create_connection((host, int(port)))
        self.socket.setsockopt(socket.IPPROTO_TCP, socket.TCP_NODELAY, 1)
        self.session, self.words, self.request = session, words, 0
        self.command, self.data = client.command_bytes(words), b""
        self.refusals = 0

    def ask(self):
        self.request += 1
        self.start = time.perf_counter()
        self.ask_again()

    def ask_again(self):
        """The same request. What it takes counts from its first time on."""
        self.socket.sendall(client.ask_frame(self.session, self.request, self.command))

    def hears(self):
        """What came: ANSWER, REFUSAL, or nothing whole yet."""
        self.data += self.socket.recv(1 << 16)
        if len(self.data) < 4 or len(self.data) < 4 + int.from_bytes(self.data[:4], "big"):
            return None
        is_answer = self.data[4] == 4
        self.data = b""
        self.refusals += not is_answer
        return ANSWER if is_answer else REFUSAL


class Run:
    """Clients that ask for so many seconds: the seconds that each answer took, all clients together."""

    def __init__(self, askers, seconds):
        self.askers, self.seconds = askers, seconds
        self.took, self.waiting = [], len(askers)
        # Those that were refused, and when they ask again.
        self.refused = collections.deque()
        self.start = time.perf_counter()

    def passed(self):
        return time.perf_counter() - self.start

    def go_on(self):
        with selectors.DefaultSelector() as selector:
            for asker in self.askers:
                asker.socket.setblocking(True)
                selector.register(asker.socket, selectors.EVENT_READ, asker)
                asker.ask()
            while self.waiting and self.passed() < self.seconds + 10:
                for key, _ in selector.select(AGAIN_AFTER if self.refused else 1):
                    self.hear(key.data)
                self.ask_again()

    def hear(self, asker):
        heard, now = asker.hears(), time.perf_counter()
        if heard == REFUSAL:
            self.refused.append((now + AGAIN_AFTER, asker))
        if heard != ANSWER:
            return
        self.took.append(now - asker.start)
        if now - self.start < self.seconds:
            asker.ask()
        else:
            self.waiting -= 1

    def ask_again(self):
        now = time.perf_counter()
        while self.refused and self.refused[0][0] <= now:
            self.refused.popleft()[1].ask_again()


def run_clients(askers, seconds):
    """The seconds that each answer took, and the seconds that passed."""
    run = Run(askers, seconds)
    run.go_on()
    return run.took, run.passed()


def percentile(took, share):
    return sorted(took)[min(len(took) - 1, int(len(took) * share))] * 1e6 if took else float("nan")


def measure(cluster, count, kind, seconds, first_session):
    words = {"store": ["store", "load-0123456789"], "collect": ["collect"]}[kind]
    askers = [
        Asker(cluster.address(1 + number % 3), first_session + number, words) for number in range(count)
    ]
    nodes_before, own_before = cluster.processor_seconds(), time.process_time()
    took, passed = run_clients(askers, seconds)
    spent, own = cluster.processor_seconds() - nodes_before, time.process_time() - own_before
    for asker in askers:
        asker.socket.close()
    return {
        "kind": kind, "count": count, "rate": len(took) / passed, "p50": percentile(took, 0.5),
        "p99": percentile(took, 0.99), "processor": spent / max(1, len(took)) * 1e6, "own": own / passed,
        "refusals": sum(asker.refusals for asker in askers),
    }


def print_row(row, alone, three):
    limit = SYNCS[row["kind"]] * alone
    say(
        f"{row['count']:>7}  {row['kind']:<8}{row['rate']:>9.0f}{row['p50']:>9.0f}{row['p99']:>9.0f}{limit:>9.0f}"
        f"{SYNCS[row['kind']] * three:>9.0f}{row['p50'] / limit:>8.2f}{row['processor']:>11.0f}"
        f"{100 * row['own']:>8.0f} %"
    )
    if row["refusals"]:
        say(f"         refused and asked again: {row['refusals']}")


def print_wanted(rows, alone):
    by_key = {(row["kind"], row["count"]): row for row in rows}
    one, most = by_key["store", 1], by_key["store", 64]
    least = 0.7 / (6 * alone / 1e6)
    say(f"a sync alone, the median of the loops: {alone:.0f} us")
    say(f"p50 of a store at one client: {one['p50'] / (6 * alone):.2f} times six syncs; wanted: at most 1.5")
    say(f"stores a second at 64 clients: {most['rate']:.0f}; wanted: at least {least:.0f}, 0.7 divided by six syncs")


def main():
    end_on_signals()
    program, seconds = sys.argv[1], float(sys.argv[2]) if len(sys.argv) > 2 else 10.0
    pause, share = (int(sys.argv[place]) if len(sys.argv) > place else least for place, least in ((3, 0), (4, 1)))
    rows, session = [], 1
    with Cluster(program, 3, share=share) as cluster:
        cluster.slow_down(pause)
        cluster.start_all()
        cluster.wait_until_ready()
        alone, three = sync_times(cluster.folder, pause)
        say(f"nodes of share {share} in {cluster.folder}; machine load before: {os.getloadavg()[0]:.2f}")
        say(f"a write with its sync: {alone:.0f} us alone, {three:.0f} us while three loops run beside each other")
        say("times in microseconds; syncs: 6 of a store, 10 of a collect; own: how much of a processor these clients take,")
        say("which measure themselves where it comes near 100 %")
        say("clients  kind         a s      p50      p99    syncs  3 beside p50/syncs  processor      own")
        for count in COUNTS:
            for kind in SYNCS:
                # A loop beside each row, since the disk's pace changes.
                alone, three = sync_times(cluster.folder, pause)
                row = measure(cluster, count, kind, seconds, session)
                session += count
                row["alone"] = alone
                rows.append(row)
                print_row(row, alone, three)
        for node in cluster.nodes:
            say("node {}: VmRSS {} kB, VmHWM {} kB".format(node, *cluster.memory(node)))
        # The median, since one loop of a busy disk says little.
        print_wanted(rows, statistics.median(row["alone"] for row in rows))
        for node, text in cluster.has_ended().items():
            say(f"node {node} ended: {text}")


if __name__ == "__main__":
    main()
