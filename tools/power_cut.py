#!/usr/bin/env python3
"""Has one sync of a node fail, starts the node again, and cuts its power: what it answered has to be there.

usage: power_cut.py PROGRAM [TIMES]

Three nodes with --beta 2/3 under clients that store and collect. A sync of node 1 fails once, as Linux has it: the program
is told, and from then on reads pages that the disk hasn't got. The node ends, is started again, and answers. Then its
machine loses its power, so that it has only what was synced, and it is started again. No session may have lost a request
that was answered, no number of a node may stand for two values, and each node has to show as many writes as were answered.
The sync is that of a record's gate (TIMES times, 2), or that which arms a side (once, at its start). It
needs a C compiler, takes three minutes, ends all that it started, and its status is 1 where one of these isn't so.
"""
import os
import pathlib
import re
import shutil
import subprocess
import sys
import threading
import time

import nodes
from nodes import Cluster, NoAnswer, Session, Verdicts, client

SIDES = ("side-a", "side-b")
# What the sessions of a node do. The answers to collects make its state longer than a page.
STORING, COLLECTING = range(100, 104), range(200, 212)
SETTING, LOOKING = 300, 400
LONGEST_TEXT, LONGEST_SET = 64, 32
# Seconds: until the sync fails, and for an answer.
UNTIL_FAULT, PATIENCE = 180, 20
# So many requests of node 1 are answered between the fault and the power cut, and after it.
ANSWERS = 100


class Told:
    """What clients were told so far, by all threads under one lock."""

    def __init__(self):
        self.lock = threading.Lock()
        # Of each node: how many writes and requests were answered. Of each node and number: what it stood for.
        self.writes, self.answers, self.values = {}, {}, {}
        self.faults = []

    def answered(self, node, is_write):
        with self.lock:
            self.answers[node] = self.answers.get(node, 0) + 1
            self.writes[node] = self.writes.get(node, 0) + is_write

    def collected(self, seen):
        with self.lock:
            for node, number, value in rows_of(seen):
                if self.values.setdefault((node, number), value) != value:
                    self.faults.append(f"number {number} of node {node} stands for two values")

    def refused(self, session, refusal, last):
        with self.lock:
            self.faults.append(f"session {session.number}, request {session.request}: refused {refusal}, the last is {last}")


def rows_of(seen):
    """The rows of `Seen [1:4=a/0/0/,..]`: node, number and value."""
    for node, number, value in re.findall(r"(\d+):(\d+)=([^,\]]*)", seen):
        yield int(node), int(number), value


class Clients:
    """Clients of all nodes. One that is told that its last request isn't there any more notes it, and goes on."""

    def __init__(self, cluster, told):
        self.told, self.is_over = told, False
        self.threads = []
        for node in cluster.nodes:
            for number in (*STORING, *COLLECTING):
                session = Session(cluster.address(node), number)
                self.threads.append(threading.Thread(target=self.run, args=(node, session), daemon=True))
        for thread in self.threads:
            thread.start()

    def run(self, node, session):
        count = 0
        while not self.is_over:
            count += 1
            is_write = session.number in STORING
            text = f"{node}.{session.number}.{count}".ljust(LONGEST_TEXT, ".")
            try:
                answer = session.ask(["store", text] if is_write else ["collect"], PATIENCE)
                self.told.answered(node, is_write)
                if not is_write:
                    self.told.collected(answer)
            except NoAnswer as why:
                if session.refusal not in (client.STALE, client.SKIP):
                    self.told.faults.append(str(why))
                    return
                self.told.refused(session, session.refusal, why.args[0].rsplit(" ", 1)[1])
                session.request = None
        session.close()

    def end(self):
        self.is_over = True
        for thread in self.threads:
            thread.join(PATIENCE)


class PowerCut:
    """A cluster whose node 1 has a disk that keeps what was synced beside it."""

    def __init__(self, cluster):
        self.cluster, self.told = cluster, Told()
        self.kept = cluster.folder / "kept"
        self.kept.mkdir()
        for side in SIDES:
            shutil.copy(cluster.folder / "node-1" / side, self.kept / side)
        library = cluster.folder / "kept_disk.so"
        words = ["cc", "-shared", "-fPIC", "-O2", "-o", library, nodes.HERE / "kept_disk.c"]
        subprocess.run(words, check=True)
        cluster.preloads = {1: str(library)}

    def start(self, fails=""):
        """Starts node 1, a sync of which fails."""
        os.environ.update(KEPT=str(self.kept), FAILS=fails)
        self.cluster.start(1)

    def fill_rows(self):
        """Each node's set gets as many numbers as it may have, so that records are long."""
        for node in self.cluster.nodes:
            session = Session(self.cluster.address(node), SETTING)
            for number in range(LONGEST_SET):
                session.ask(["add", str(number)], PATIENCE)
                self.told.answered(node, True)
            session.close()

    def wait_for_fault(self):
        try:
            self.cluster.running[1].wait(UNTIL_FAULT)
        except subprocess.TimeoutExpired:
            raise NoAnswer(f"no sync failed in {UNTIL_FAULT} s") from None
        # While it serves, or where it writes itself anew at its start.
        if not re.search(r"Failed|Device . Sync", said := self.cluster.log(1)):
            raise NoAnswer(f"node 1 ended otherwise: {said.strip().splitlines()[-1]}")
        self.cluster.kill(1)

    def wait_for_answers(self):
        """So many more requests of node 1 are answered, or time is over."""
        goal, end = self.told.answers[1] + ANSWERS, time.monotonic() + PATIENCE
        while self.told.answers[1] < goal and time.monotonic() < end:
            time.sleep(0.05)

    def cut(self):
        """Node 1's files get what was synced. How many bytes of them differ."""
        self.cluster.kill(1)
        lost = 0
        for side in SIDES:
            file, kept = self.cluster.folder / "node-1" / side, self.kept / side
            lost += sum(a != b for a, b in zip(file.read_bytes(), kept.read_bytes()))
            shutil.copy(kept, file)
        return lost

    def look(self):
        """Each node shows as many writes of each as were answered."""
        for node in self.cluster.nodes:
            session = Session(self.cluster.address(node), LOOKING)
            try:
                numbers = {of: number for of, number, _ in rows_of(session.ask(["collect"], PATIENCE))}
            except NoAnswer as why:
                self.told.faults.append(f"node {node}: {why}")
                continue
            finally:
                session.close()
            for of, count in self.told.writes.items():
                if numbers.get(of, 0) < count:
                    shown = f"node {node} shows {numbers.get(of, 0)} writes of node {of}"
                    self.told.faults.append(f"{shown}, {count} were answered")


def run_and_cut(program, fails):
    """The faults, and what was done."""
    with Cluster(program, 3, beta="2/3", share=32) as cluster:
        trial = PowerCut(cluster)
        trial.start()
        for node in (2, 3):
            cluster.start(node)
        cluster.wait_until_ready()
        trial.fill_rows()
        cluster.kill(1)
        trial.start(fails)
        clients = Clients(cluster, trial.told)
        trial.wait_for_fault()
        before = trial.told.answers[1]
        trial.start()
        trial.wait_for_answers()
        between, lost = trial.told.answers[1] - before, trial.cut()
        trial.start()
        trial.wait_for_answers()
        clients.end()
        trial.look()
        writes = sum(trial.told.writes.values())
        return trial.told.faults, f"{between} answers between the fault and the power cut, {lost} bytes lost, {writes} writes"


def main(program, times):
    verdicts = Verdicts()
    for fails, what in [("record", "the sync of a record's gate")] * times + [("side", "the sync that arms a side")]:
        try:
            faults, done = run_and_cut(program, fails)
            verdicts.add(not faults, f"{what} fails: {done}; {len(faults)} faults {faults[:2] or ''}")
        except NoAnswer as why:
            verdicts.add(False, f"{what}: {why}")
    sys.exit(not verdicts.is_good)


if __name__ == "__main__":
    if not 2 <= len(sys.argv) <= 3:
        sys.exit(__doc__)
    nodes.end_on_signals()
    main(sys.argv[1], int(sys.argv[2]) if len(sys.argv) > 2 else 2)
