#!/usr/bin/env python3
"""Runs clusters under load of which members stay away, prints operations a second, and says whether they went on.

    soak_absent.py crates/ccnode/out/ccnode [MINUTES [PAUSE]]

The clients ask nodes that stay, since a node runs one operation at a time and nobody else serves a dead node's clients. Three
nodes of which two are enough, under 64 clients at two of them: the third one is killed for MINUTES (10), started again,
stopped for 20 seconds, and then killed and started again for two minutes. Five nodes of which three are enough: two are
killed for a minute, and then all five are started at once; and two can't reach the other three for a minute. Three nodes that
all have to answer, one of which dies while an operation pends and is retired. And a node enters a cluster under load that has
an address for it only 20 seconds later. With PAUSE each sync of each node takes so many microseconds more; that needs a C
compiler. The status is 1 where operations didn't go on as they should.
"""
import signal
import statistics
import sys
import threading
import time

from nodes import Cluster, NoAnswer, Session, Verdicts, cluster_words, end_on_signals, free_ports, say
from soak import CLIENTS, RelayedCluster, WatchedLoad, judge_going_on, report

# How much of the rate before has to be left while a member is away, and while it comes and goes.
LEFT_WHILE_AWAY, LEFT_WHILE_FLAPPING = 0.8, 0.5
# After how many seconds a member is taken for absent and others go on; one that is back serves, and is counted.
PAUSED_FOR, BACK_WITHIN, COUNTS_WITHIN = 4.0, 5.0, 10.0
# After how many seconds an operation that waited for a dead member ends, once it is retired; and an entrant serves.
ENDS_WITHIN, JOINED_WITHIN = 5.0, 30.0


def judge_rate(verdicts, before, rates, share, what):
    """The rate over all these spans of five seconds is that share of the one before, and in none was it nothing."""
    rate, least = statistics.mean(rates), min(rates)
    verdicts.add(
        least > 0 and rate >= share * before,
        f"{what}: {rate:.0f} operations a second where there were {before:.0f}, {least:.0f} in the least five seconds",
    )


def numbers_seen(answer):
    """Of each node in a collect's answer the number of its last write."""
    rows = [row.split("=")[0].split(":") for row in answer.removeprefix("Seen [").removesuffix("]").split(",") if row]
    return {int(node): int(number) for node, number in rows}


def judge_return(cluster, verdicts, node, others):
    """Each client of a node that is started again is answered soon, and a collect there misses nothing that was answered."""
    known = numbers_seen(Session(cluster.address(others[0]), 800).ask(["collect"], 30))
    start = time.monotonic()
    cluster.start(node)
    for place in range(CLIENTS):
        seen = numbers_seen(Session(cluster.address(node), 700 + place).ask(["collect"], 30))
    took = time.monotonic() - start
    verdicts.add(took <= BACK_WITHIN, f"node {node} is back: {CLIENTS} clients of it are answered after {took:.1f} s")
    missed = {peer: number for peer, number in known.items() if seen.get(peer, 0) < number}
    verdicts.add(not missed, f"of what was answered before, a collect at node {node} misses {missed or 'nothing'}")
    return start


def judge_counting(cluster, verdicts, load, back_since):
    """Within some seconds of its return node 3 is counted again: with node 2 stopped, node 1 goes on by its answers."""
    load.watch("node 3 back", COUNTS_WITHIN - (time.monotonic() - back_since))
    cluster.signal(2, signal.SIGSTOP)
    try:
        first, _ = load.goes_on([1])
    finally:
        cluster.signal(2, signal.SIGCONT)
    told = f"after {first:.1f} s" if first is not None else "not in 30 s"
    verdicts.add(
        first is not None and first <= BACK_WITHIN,
        f"{COUNTS_WITHIN:.0f} s after its return node 3 is counted: with node 2 stopped, node 1 goes on {told}",
    )
    load.watch("node 2 goes on", 10)


def member_away(program, verdicts, minutes, pause):
    """One of three nodes stays away: dead, stopped, and coming and going."""
    with Cluster(program, 3, beta="2/3") as cluster:
        cluster.slow_down(pause)
        cluster.start_all()
        cluster.wait_until_ready(60)
        load = WatchedLoad(cluster, (1, 2), 32)
        try:
            before = statistics.mean(load.watch("three nodes", 60))
            dead_for(cluster, load, verdicts, minutes, before)
            judge_counting(cluster, verdicts, load, judge_return(cluster, verdicts, 3, (1, 2)))
            stopped(cluster, load, verdicts, before)
            rates = flapping(cluster, load)
            judge_rate(verdicts, before, rates, LEFT_WHILE_FLAPPING, "a node that comes and goes for two minutes")
            report(cluster, load, verdicts)
        finally:
            load.end()


def dead_for(cluster, load, verdicts, minutes, before):
    say(f"node 3 is killed for {minutes} minutes")
    cluster.kill(3)
    load.watch("node 3 dead", PAUSED_FOR, step=1.0)
    rates = load.watch("node 3 dead", 60 * minutes)
    what = f"a node dead for {minutes} minutes, from the fourth second on"
    judge_rate(verdicts, before, rates, LEFT_WHILE_AWAY, what)
    slow = sum(rate < LEFT_WHILE_AWAY * before for rate in rates)
    verdicts.add(not slow, f"{what}: {slow} of {len(rates)} spans of five seconds below {LEFT_WHILE_AWAY} of before")


def stopped(cluster, load, verdicts, before):
    say("node 3 is stopped for 20 seconds")
    cluster.signal(3, signal.SIGSTOP)
    rates = load.watch("node 3 stopped", 20)
    cluster.signal(3, signal.SIGCONT)
    judge_rate(verdicts, before, rates, LEFT_WHILE_FLAPPING, "a node stopped for 20 seconds")
    load.watch("node 3 goes on", 10)


def flapping(cluster, load):
    """The rates of two minutes, in which node 3 is away for ten seconds of each twenty."""
    rates = []
    for _ in range(6):
        cluster.kill(3)
        rates += load.watch("node 3 away", 10)
        cluster.start(3)
        rates += load.watch("node 3 back", 10)
    return rates


def two_of_five_away(program, verdicts, pause):
    """Two of five nodes are dead for a minute, and then all five are started at once."""
    with Cluster(program, 5, beta="3/5") as cluster:
        cluster.slow_down(pause)
        cluster.start_all()
        cluster.wait_until_ready(60)
        load = WatchedLoad(cluster, (1, 2, 3), CLIENTS)
        try:
            before = statistics.mean(load.watch("five nodes", 20))
            say("nodes 4 and 5 are killed")
            cluster.kill(4)
            cluster.kill(5)
            rates = load.watch("two of five dead", 60)
            judge_rate(verdicts, before, rates, LEFT_WHILE_FLAPPING, "two of five nodes dead")
            judge_return(cluster, verdicts, 4, (1, 2, 3))
            say("all are killed, and all five are started at once")
            for node in (1, 2, 3, 4):
                cluster.kill(node)
            cluster.start_all()
            judge_going_on(verdicts, load, (1, 2, 3), "all five nodes started at once")
            judge_sessions(cluster, verdicts, (4, 5), "all five nodes started at once")
            report(cluster, load, verdicts)
        finally:
            load.end()


def judge_sessions(cluster, verdicts, nodes, after):
    """A client of each of these nodes is answered soon."""
    for node in nodes:
        start = time.monotonic()
        try:
            Session(cluster.address(node), 600).ask(["collect"], 30)
            told = f"after {time.monotonic() - start:.1f} s"
        except NoAnswer as why:
            told = f"not: {why}"
        verdicts.add(time.monotonic() - start <= BACK_WITHIN, f"{after}: a client of node {node} is answered {told}")


def halves(program, verdicts, pause):
    """Two of five nodes can't reach the others for a minute."""
    with RelayedCluster(program, 5, beta="3/5") as cluster:
        cluster.slow_down(pause)
        cluster.start_relays()
        cluster.start_all()
        cluster.wait_until_ready(60)
        load = WatchedLoad(cluster, (3, 4, 5), CLIENTS)
        try:
            before = statistics.mean(load.watch("all reach each other", 20))
            say("1 and 2 can't reach 3, 4 and 5 for a minute")
            cluster.command("cut 1,2")
            rates = load.watch("two halves", 60)
            judge_rate(verdicts, before, rates, LEFT_WHILE_FLAPPING, "the greater of two halves")
            cluster.command("join")
            judge_sessions(cluster, verdicts, (1, 2), "the halves joined")
            judge_going_on(verdicts, load, (3, 4, 5), "the halves joined")
            report(cluster, load, verdicts)
        finally:
            load.end()


def retired_while_pending(program, verdicts, pause):
    """All of three nodes have to answer. One dies while an operation pends, and is retired."""
    with Cluster(program, 3) as cluster:
        cluster.slow_down(pause)
        cluster.start_all()
        cluster.wait_until_ready(60)
        say("all of three nodes have to answer, and node 3 is killed")
        cluster.kill(3)
        asked = {node: Session(cluster.address(node), 600) for node in (1, 2)}
        ended = {}
        threads = [threading.Thread(target=ask_timed, args=(asked[node], node, ended), daemon=True) for node in asked]
        for thread in threads:
            thread.start()
        time.sleep(10)
        verdicts.add(not ended, "a store at either other node pends for ten seconds")
        start = time.monotonic()
        for node in asked:
            told = cluster.does(["retire", cluster.address(node), "3"])[1]
            verdicts.add(told == "retired 3", f"node {node} was told to retire 3")
        for thread in threads:
            thread.join(30)
        for node in asked:
            took = ended.get(node, start + 30) - start
            verdicts.add(took <= ENDS_WITHIN, f"node 3 retired: the store that pended at node {node} ends after {took:.1f} s")
        judge_sessions(cluster, verdicts, (1, 2), "node 3 retired")


def ask_timed(session, node, ended):
    session.ask(["store", "pending"], 60)
    ended[node] = time.monotonic()


class GrowingCluster(Cluster):
    """Members, and node 4, which enters. The others have an address for it once it is named."""

    def __init__(self, program):
        super().__init__(program, 3, beta="2/3")
        self.ports[4] = free_ports(1)[0]
        self.is_named = False

    def run_words(self, node):
        known = [*self.nodes, 4] if self.is_named else self.nodes
        peers = ",".join(f"{peer}={self.address(peer)}" for peer in known if peer != node)
        return ["run", f"node-{node}", "--listen", self.address(node), "--peers", peers]

    def start_entrant(self):
        (self.folder / "node-4").mkdir()
        told = self.does(["format", "node-4", "4", "--contacts", "1,2,3", "--beta", self.beta,
                          *cluster_words(self.name)])[1]
        self.start(4)
        return told


def late_address(program, verdicts, pause):
    """A node enters under load, and is named among the others' peers only 20 seconds later, as they are started again."""
    with GrowingCluster(program) as cluster:
        cluster.slow_down(pause)
        cluster.start_all()
        cluster.wait_until_ready(60)
        load = WatchedLoad(cluster, cluster.nodes, CLIENTS)
        try:
            say(f"node 4 enters: {cluster.start_entrant()}")
            load.watch("nobody has an address for node 4", 20)
            cluster.is_named = True
            for node in cluster.nodes:
                cluster.kill(node)
                cluster.start(node)
                time.sleep(2)
            judge_joining(cluster, verdicts)
            report(cluster, load, verdicts)
        finally:
            load.end()


def judge_joining(cluster, verdicts):
    start = time.monotonic()
    try:
        Session(cluster.address(4), 700).ask(["collect"], JOINED_WITHIN)
        told = None
    except NoAnswer as why:
        told = why
    took, why = time.monotonic() - start, f": {told}" if told else ""
    verdicts.add(told is None, f"an entrant whose echoes lapsed serves {took:.1f} s after all have its address{why}")


def main():
    end_on_signals()
    minutes = float(sys.argv[2]) if len(sys.argv) > 2 else 10
    pause = int(sys.argv[3]) if len(sys.argv) > 3 else 0
    verdicts = Verdicts()
    member_away(sys.argv[1], verdicts, minutes, pause)
    for scenario in (two_of_five_away, halves, retired_while_pending, late_address):
        scenario(sys.argv[1], verdicts, pause)
    say("verdicts:")
    for line in verdicts.lines:
        say(line)
    sys.exit(not verdicts.is_good)


if __name__ == "__main__":
    main()
