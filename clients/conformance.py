#!/usr/bin/env python3
"""Runs the client libraries against a cluster on loopback whose nodes are killed with SIGKILL and started again meanwhile,
and checks what their clients were told.

    conformance.py crates/ccnode/out/ccnode [--operations N] [--kills N] [--share N]

Three nodes, of which an operation waits for two. A program of each language has two clients at each node, and does
OPERATIONS operations in all: writes of each kind, collects and readings. Each fiftieth operation has a deadline of a
millisecond, and after each 400 a client is closed and another one goes on in its session. The KILLS are spread over the
operations, one node at a time. Then each program runs again, for a twentieth of the operations and without kills: nine
of ten are snapshots, which have two seconds, and one is a store. Checked (histories.py): each write was done once, no
reading lacks what was answered or read before it began, or has what nobody asked, and of any two snapshots one is within
the other; the status is 1 where something isn't so. It takes some minutes.
"""
import argparse
import random
import subprocess
import sys
import time

import languages
from histories import Checker, Operation, read_log, settled, snapshots_of

sys.path.insert(0, str(languages.HERE.parent / "tools"))
sys.path.insert(0, str(languages.HERE / "python" / "src"))

import ccnode  # noqa: E402
from nodes import Cluster, end_on_signals, say  # noqa: E402

# Of 20 operations: s store, c collect, m max, M read_max, f flag (read_flag in the first half), F read_flag, a add, S read_set.
PLAN = "scsmcMsaFscsmcSsafcs"
# Of 10 operations: n snapshot, s store. Beside as many writes as PLAN has no snapshot would end.
SNAPSHOTS_PLAN = "nnnnnnnnns"
# The run for snapshots has so many times fewer operations.
FEWER = 20
CLIENTS_A_NODE = 2
# Sessions of a node are numbered from so many times its number on; the last one is this script's.
SESSIONS_A_NODE = 100
# Those of the run for snapshots are so many further on: a text has the number of its session, so none is stored twice.
FURTHER_ON = 50
# For so many seconds operations may stand still, and the clock may have jumped so far.
PATIENCE, JUMP = 150.0, 0.001
# A killed node stays away for so many seconds at most.
AWAY = 0.3


class Drivers:
    """A program of each language that runs by a plan, with its log. Its sessions are so many further on."""

    def __init__(self, cluster, chosen, plan, operations, further_on=0):
        self.logs = {language.name: cluster.folder / f"{language.name}-{plan}.log" for language in chosen}
        clients = CLIENTS_A_NODE * len(cluster.nodes)
        self.cluster, self.chosen, self.plan, self.further_on = cluster, chosen, plan, further_on
        # Of each client, rounded up.
        self.operations = -(-operations // clients)
        self.total = len(chosen) * clients * self.operations
        self.running = {}
        self.read = dict.fromkeys(self.logs, (0, 0))

    def start(self):
        for place, language in enumerate(self.chosen):
            words = [str(self.operations), self.plan, *self.clients_of(place)]
            with open(self.logs[language.name], "wb") as log:
                self.running[language.name] = subprocess.Popen(
                    [*language.driver, *words], cwd=language.folder, stdin=subprocess.DEVNULL, stdout=log
                )

    def clients_of(self, place):
        for node in self.cluster.nodes:
            for client in range(CLIENTS_A_NODE):
                session = SESSIONS_A_NODE * node + self.further_on + CLIENTS_A_NODE * place + client
                yield f"{node},{self.cluster.address(node)},{session}"

    def done(self):
        """How many operations the logs have."""
        for name, (place, lines) in self.read.items():
            with open(self.logs[name], "rb") as log:
                log.seek(place)
                piece = log.read()
            self.read[name] = place + len(piece), lines + piece.count(b"\n")
        return sum(lines for _, lines in self.read.values())

    def logged(self, name):
        """The operations of a language: none where its program was never started."""
        return read_log(self.logs[name]) if name in self.running else []

    def failed(self):
        """The programs that ended badly."""
        return [name for name, process in self.running.items() if process.poll()]

    def are_over(self):
        return all(process.poll() is not None for process in self.running.values())

    def end(self):
        for process in self.running.values():
            process.kill()
            process.wait()


class Standstill(Exception):
    """Operations stand still, or a program has ended badly."""


def wait_until(drivers, is_so):
    """Waits until it is so, as long as operations are done."""
    least, since = drivers.done(), time.monotonic()
    while not is_so():
        time.sleep(0.01)
        if drivers.done() > least:
            least, since = drivers.done(), time.monotonic()
        if drivers.failed():
            raise Standstill(f"ended badly: {', '.join(drivers.failed())}")
        if time.monotonic() - since > PATIENCE:
            raise Standstill(f"no operation was done for {PATIENCE} seconds")


def kill_and_start(cluster, drivers, kills):
    """Spreads the kills over the operations. A node is killed only once the one before is back, and has been asked for its
    view."""
    for kill in range(1, kills + 1):
        wait_until(drivers, lambda: drivers.done() * (kills + 1) >= drivers.total * kill)
        node = random.choice(cluster.nodes)
        cluster.kill(node)
        time.sleep(random.uniform(0, AWAY))
        cluster.start(node)
        yield view_of(cluster, node)
        if kill % 10 == 0:
            say(f"{kill} kills, {drivers.done()} of {drivers.total} operations")
    wait_until(drivers, drivers.are_over)


def microseconds():
    return time.time_ns() // 1000


def view_of(cluster, node):
    """A collect of this script at a node, as the clients log theirs."""
    with ccnode.connect(cluster.address(node), SESSIONS_A_NODE * (node + 1) - 1, 60.0) as client:
        start = microseconds()
        rows = [[row.node, row.number, row.text.decode(), row.max, row.flag, row.set] for row in client.collect()]
    line = {"client": "conformance.py", "session": 0, "node": node, "operation": "collect", "argument": None}
    return Operation({**line, "start": start, "end": microseconds() + 1, "answer": rows})


def check(runs, views, nodes):
    """What isn't so, and the log of each language. The last views are those of all nodes at the end."""
    checker = Checker(nodes)
    logs = {name: [operation for drivers in runs for operation in drivers.logged(name)] for name in runs[0].logs}
    operations = [operation for log in logs.values() for operation in settled(log, checker.faults)]
    checker.run([*operations, *views])
    logged, total = sum(map(len, logs.values())), sum(drivers.total for drivers in runs)
    if logged != total:
        checker.faults.append(f"{logged} operations were logged, of {total}")
    for name, log in logs.items():
        if snapshots_of(log).late and not snapshots_of(log).taken:
            checker.faults.append(f"{name} took no snapshot: all ended by their deadline")
    for view in views[-len(nodes) :]:
        if view.answer != views[-1].answer:
            checker.faults.append(f"nodes {view.node} and {views[-1].node} collect different views at the end")
        for node, number, *_ in view.answer:
            if number != checker.asked[node].number:
                checker.faults.append(f"node {node} has made {number} writes, and was asked {checker.asked[node].number}")
    return checker.faults, logs


def counted(log):
    late = [operation.told("deadline") for operation in log]
    return {
        "operations": len(log),
        "writes": sum(operation.is_write for operation in log),
        "deadlines while pending": late.count("pending"),
        "before anything was sent": late.count("unsent"),
        "snapshots": snapshots_of(log).taken,
    }


def run(cluster, chosen, operations, kills):
    """The faults, and the logs of the languages."""
    cluster.start_all()
    cluster.wait_until_ready()
    clock = time.time() - time.monotonic()
    faults, views = [], []
    writing = Drivers(cluster, chosen, PLAN, operations)
    snapping = Drivers(cluster, chosen, SNAPSHOTS_PLAN, operations // FEWER, FURTHER_ON)
    try:
        writing.start()
        views.extend(kill_and_start(cluster, writing, kills))
        snapping.start()
        wait_until(snapping, snapping.are_over)
    except Standstill as why:
        faults.append(str(why))
    finally:
        writing.end()
        snapping.end()
    jump = abs(time.time() - time.monotonic() - clock)
    if jump > JUMP:
        faults.append(f"the clock has jumped by {jump} seconds: nothing is told by this run")
    faults.extend(f"node {node} ended: {text}" for node, text in cluster.has_ended().items())
    views.extend(view_of(cluster, node) for node in cluster.nodes)
    found, logs = check([writing, snapping], views, cluster.nodes)
    return faults + found, logs


def arguments():
    parser = argparse.ArgumentParser(description=__doc__.partition("\n\n")[0])
    parser.add_argument("program", help="ccnode, as `make run` builds it")
    parser.add_argument("--operations", type=int, default=20_000, help="of each language (20000)")
    parser.add_argument("--kills", type=int, default=60, help="in all (60)")
    parser.add_argument("--share", type=int, default=1, help="how many asks of a node begin together (1)")
    return parser.parse_args()


def main():
    end_on_signals()
    words = arguments()
    chosen = list(languages.installed())
    languages.OUT.mkdir(exist_ok=True)
    for language in chosen:
        if language.build:
            subprocess.run(language.build, cwd=language.folder, check=True, timeout=600)
    start = time.monotonic()
    with Cluster(words.program, 3, beta="2/3", share=words.share) as cluster:
        faults, logs = run(cluster, chosen, words.operations, words.kills)
    for name, log in logs.items():
        say(f"{name}: " + ", ".join(f"{count} {what}" for what, count in counted(log).items()))
    say(str(snapshots_of([operation for log in logs.values() for operation in log])))
    for fault in faults[:20]:
        say(f"FAULT: {fault}")
    say(f"{words.kills} kills, {sum(map(len, logs.values()))} operations in "
        f"{time.monotonic() - start:.0f} s; faults: {len(faults)}")
    sys.exit(bool(faults))


if __name__ == "__main__":
    main()
