#!/usr/bin/env python3
"""Kills nodes of a cluster under load with SIGKILL at random moments, starts each again, and checks what clients are told.

    kill_cluster.py crates/ccnode/out/ccnode [KILLS [AWAY [SHARE]]]

Three nodes, of which an operation waits for two; a killed one is started again after AWAY (0.1) seconds at most. At each
node one session stores texts that count up, one writes maxima that count up, and one collects; where up to SHARE asks of
a node begin together, seven write maxima and four collect. Each asks again under the same number where its connection
breaks. Checked: a collect has all that was answered before it began, to writers and in other collects; a number of a node
stands for one value; each write was done once; the cluster goes on. It prints counts; the status is 1 where something
isn't so.
"""
import random
import sys
import threading
import time

from nodes import Cluster, NoAnswer, Session, end_on_signals, say

# A client may wait for so many seconds, and for so many times as long as its own node may be away, which may be killed
# again and again.
PATIENCE, AWAY_TIMES = 30, 6

# What the sessions of a node do, and of one of whose asks several begin together.
ALONE = ("store", "max", "collect")
TOGETHER = ("store", *["max"] * 7, *["collect"] * 4)
# Beyond these a node has one session more, which collects at the end.
MOST_SESSIONS = 100


class Told:
    """What clients were told so far, by all threads under one lock."""

    def __init__(self, nodes, patience):
        self.lock = threading.Lock()
        # How long a client may wait.
        self.patience = patience
        # Of each node: the last text, maximum and number that a client knows of, and what each number stood for.
        self.least = {node: [0, 0, 0] for node in nodes}
        self.values = {}
        self.writes = {node: 0 for node in nodes}
        self.collects, self.faults, self.last_answer = 0, [], time.monotonic()

    def fault(self, text):
        self.faults.append(text)
        say(f"FAULT: {text}")

    def wrote(self, node, place, count):
        with self.lock:
            self.least[node][place] = max(self.least[node][place], count)
            self.writes[node] += 1
            self.last_answer = time.monotonic()

    def begins(self):
        with self.lock:
            return {node: list(known) for node, known in self.least.items()}

    def collected(self, asked_at, before, rows):
        with self.lock:
            self.collects += 1
            self.last_answer = time.monotonic()
            for node, known in before.items():
                self.check(asked_at, node, known, rows.get(node, (0, 0, 0, "")))

    def check(self, asked_at, node, known, row):
        *counts, value = row
        if any(count < least for count, least in zip(counts, known)):
            self.fault(f"a collect at {asked_at} has text, maximum and number {counts} of {node}; {known} were told before")
        if counts[2] and self.values.setdefault((node, counts[2]), value) != value:
            self.fault(f"number {counts[2]} of {node} stands for {self.values[node, counts[2]]} and for {value}")
        self.least[node] = [max(pair) for pair in zip(self.least[node], counts)]


def rows_of(answer):
    """Of each node in `Seen [..]`: the count in its text, its maximum, its number and the whole value."""
    rows = {}
    for row in answer[len("Seen [") : -1].split(","):
        if row:
            name, value = row.split("=", 1)
            node, number = map(int, name.split(":"))
            text, greatest, *_ = value.split("/")
            rows[node] = (int(text or 0), int(greatest), number, value)
    return rows


class Client(threading.Thread):
    def __init__(self, told, session, node, kind, over):
        super().__init__(daemon=True)
        self.told, self.session, self.node, self.kind, self.over = told, session, node, kind, over

    def run(self):
        count = 0
        try:
            while not self.over.is_set():
                count += 1
                self.step(count)
        except NoAnswer as why:
            if not self.session.is_over:
                with self.told.lock:
                    self.told.fault(str(why))
        finally:
            self.session.close()

    def step(self, count):
        if self.kind == "collect":
            before = self.told.begins()
            answer = self.session.ask(["collect"], self.told.patience)
            self.told.collected(self.node, before, rows_of(answer))
        else:
            self.session.ask([self.kind, str(count)], self.told.patience)
            self.told.wrote(self.node, ["store", "max"].index(self.kind), count)


def start_clients(cluster, told, over):
    clients = []
    for node in cluster.nodes:
        for place, kind in enumerate(ALONE if cluster.share == 1 else TOGETHER):
            session = Session(cluster.address(node), MOST_SESSIONS * node + place)
            clients.append(Client(told, session, node, kind, over))
    for client in clients:
        client.start()
    return clients


def kill_and_start(cluster, told, kills, away):
    """How many answers came between each kill and the next one."""
    answers, before = [], 0
    for kill in range(1, kills + 1):
        time.sleep(random.uniform(0.02, 1.4))
        node = random.choice(cluster.nodes)
        cluster.kill(node)
        time.sleep(random.uniform(0, away))
        cluster.start(node)
        now = sum(told.writes.values()) + told.collects
        answers.append(now - before)
        before = now
        if kill % 20 == 0:
            say(f"{kill} kills, {sum(told.writes.values())} writes and {told.collects} collects answered")
        if time.monotonic() - told.last_answer > told.patience or told.faults:
            break
    return answers


def check_end(cluster, told):
    """All nodes collect the same, and each write was done once."""
    views = []
    for node in cluster.nodes:
        last = Session(cluster.address(node), MOST_SESSIONS * (node + 1) - 1)
        rows = rows_of(last.ask(["collect"], told.patience))
        told.collected(node, told.begins(), rows)
        views.append(rows)
    if any(view != views[0] for view in views):
        told.fault(f"the nodes collect different views: {views}")
    for node in cluster.nodes:
        number = views[0].get(node, (0, 0, 0, ""))[2]
        if number != told.writes[node]:
            told.fault(f"node {node} has made {number} writes, and clients were answered {told.writes[node]}")
    for node, text in cluster.has_ended().items():
        told.fault(f"node {node} ended: {text}")


def main():
    end_on_signals()
    program, kills = sys.argv[1], int(sys.argv[2]) if len(sys.argv) > 2 else 200
    away = float(sys.argv[3]) if len(sys.argv) > 3 else 0.1
    share = int(sys.argv[4]) if len(sys.argv) > 4 else 1
    over = threading.Event()
    with Cluster(program, 3, beta="2/3", share=share) as cluster:
        cluster.start_all()
        cluster.wait_until_ready()
        told, start = Told(cluster.nodes, PATIENCE + AWAY_TIMES * away), time.monotonic()
        clients = start_clients(cluster, told, over)
        try:
            answers = kill_and_start(cluster, told, kills, away)
            over.set()
            for client in clients:
                client.join(told.patience + 5)
            check_end(cluster, told)
        finally:
            over.set()
            for client in clients:
                client.session.is_over = True
        breaks = sum(client.session.breaks for client in clients)
        say(f"{len(answers)} kills in {time.monotonic() - start:.0f} s; {sum(told.writes.values())} writes and "
            f"{told.collects} collects answered, {breaks} times asked again over a new connection")
        say(f"least answers between two kills: {min(answers)}; numbers seen: {len(told.values)}, each with one value")
        say(f"faults: {len(told.faults)}")
    sys.exit(bool(told.faults) or len(answers) < kills)


if __name__ == "__main__":
    main()
