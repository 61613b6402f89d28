#!/usr/bin/env python3
"""Runs five nodes under 8 clients each through bad times, prints operations a second, and says whether they went on.

    soak.py crates/ccnode/out/ccnode [SHARE]

Up to SHARE (1) asks of a node begin together. A node whose syncs take five milliseconds more, for a minute; a node that
is stopped for 20 seconds under load (SIGSTOP) and continued; two halves that can't reach each other for 10 seconds, and
then can; a node that is killed for good, what clients are told then, and `ccnode retire` at the others. It needs a C
compiler. The status is 1 where operations didn't go on. soak_absent.py has members that stay away.
"""
import math
import signal
import subprocess
import sys
import time

from nodes import HERE, Cluster, Load, Verdicts, end_on_signals, free_ports, say, slow_sync, stolen

CLIENTS = 8
GOES_ON_WITHIN = 5.0
NODES = range(1, 6)


class WatchedLoad(Load):
    """A load whose operations a second are printed, and what its nodes say meanwhile."""

    def __init__(self, cluster, nodes, clients):
        super().__init__(cluster, nodes, clients)
        # How much of each node's log was printed.
        self.cluster, self.printed = cluster, {}

    def watch(self, label, seconds, step=5.0):
        """
        Prints operations a second over time, and how much of its processors the machine was kept from. Gives the rates
        of the steps, which are equally long.
        """
        rates, number = [], math.ceil(seconds / step)
        for _ in range(number):
            before, start, stolen_before = self.total(), time.monotonic(), stolen()
            time.sleep(seconds / number)
            took = time.monotonic() - start
            rates.append((self.total() - before) / took)
            share = 100 * (stolen() - stolen_before) / took
            say(f"  {label}, second {self.seconds():.0f}: {rates[-1]:.0f} operations a second, {share:.0f} % stolen")
            self.say_notes()
        return rates

    def say_notes(self):
        for node in self.cluster.running:
            text = self.cluster.log(node)
            for line in text[self.printed.get(node, 0) :].splitlines():
                say(f"    {line}")
            self.printed[node] = len(text)

    def goes_on(self, nodes):
        """After how many seconds a client of some node and one of each of these nodes was answered."""
        start, before, first = time.monotonic(), dict(self.answers), None
        left = set(nodes)
        while left and time.monotonic() - start < 30:
            time.sleep(0.02)
            left = {node for node in left if self.answers[node] == before[node]}
            if first is None and len(left) < len(nodes):
                first = time.monotonic() - start
        return first, None if left else time.monotonic() - start


def judge_going_on(verdicts, load, nodes, after):
    first, everywhere = load.goes_on(nodes)
    told = [f"{seconds:.1f} s" if seconds is not None else "not in 30 s" for seconds in (first, everywhere)]
    verdicts.add(
        everywhere is not None and everywhere <= GOES_ON_WITHIN,
        f"{after}: operations go on after {told[0]}, at each node that runs after {told[1]}",
    )


class RelayedCluster(Cluster):
    """Nodes that reach each other over relays."""

    def __init__(self, program, count, beta="4/5", share=1):
        super().__init__(program, count, beta, share=share)
        ways = [(node, peer) for node in self.nodes for peer in self.nodes if node != peer]
        self.ways = dict(zip(ways, free_ports(len(ways))))
        self.relays = None

    def way(self, node, peer):
        return f"127.0.0.1:{self.ways[node, peer]}"

    def start_relays(self):
        words = [f"{node}:{port}={peer}:{self.ports[peer]}" for (node, peer), port in self.ways.items()]
        self.relays = subprocess.Popen(
            [sys.executable, HERE / "relays.py", *words], stdin=subprocess.PIPE, stdout=subprocess.PIPE, text=True
        )
        self.relays.stdout.readline()

    def command(self, line):
        self.relays.stdin.write(line + "\n")
        self.relays.stdin.flush()

    def __exit__(self, *_):
        super().__exit__()
        if self.relays:
            self.relays.kill()
            self.relays.wait()


def slow_and_stopped(program, share, verdicts):
    with Cluster(program, len(NODES), share=share) as cluster:
        cluster.preloads[5] = slow_sync(cluster.folder)
        cluster.start_all()
        cluster.wait_until_ready(60)
        say("node 5's syncs take five milliseconds more")
        load = WatchedLoad(cluster, cluster.nodes, CLIENTS)
        try:
            least = min(load.watch("one slow disk", 60))
            verdicts.add(least > 0, f"a slow disk: at least {least:.0f} operations a second in each five seconds of a minute")
            say("node 2 is stopped for 20 seconds")
            cluster.signal(2, signal.SIGSTOP)
            load.watch("node 2 stopped", 20)
            cluster.signal(2, signal.SIGCONT)
            judge_going_on(verdicts, load, cluster.nodes, "node 2 continued")
            load.watch("node 2 goes on", 10)
            report(cluster, load, verdicts)
        finally:
            load.end()


def halves_and_dead(program, share, verdicts):
    with RelayedCluster(program, len(NODES), share=share) as cluster:
        cluster.start_relays()
        cluster.start_all()
        cluster.wait_until_ready(60)
        load = WatchedLoad(cluster, cluster.nodes, CLIENTS)
        try:
            load.watch("all reach each other", 5)
            say("1 and 2 can't reach 3, 4 and 5 for 10 seconds")
            cluster.command("cut 1,2")
            load.watch("two halves", 10)
            cluster.command("join")
            judge_going_on(verdicts, load, cluster.nodes, "the halves joined")
            load.watch("joined", 10)
            dead_for_good(cluster, load, verdicts)
            report(cluster, load, verdicts)
        finally:
            load.end()


def dead_for_good(cluster, load, verdicts):
    say("node 5 is killed for good")
    cluster.kill(5)
    load.watch("node 5 dead", 20)
    told = cluster.does(["ask", cluster.address(1), "999", "store", "x", "--timeout", "30"])[1]
    verdicts.add(told == "Stored", f"what a client of node 1 is told then: {told}")
    for node in (1, 2, 3, 4):
        told = cluster.does(["retire", cluster.address(node), "5"])[1]
        verdicts.add(told == "retired 5", f"node {node} was told to retire 5")
    judge_going_on(verdicts, load, (1, 2, 3, 4), "node 5 retired")
    load.watch("node 5 retired", 10)


def report(cluster, load, verdicts):
    for node, seconds in load.slow.items():
        for second, (count, slowest) in sorted(seconds.items()):
            say(f"  second {second}, node {node}: {count} answers took a second or more, the slowest {slowest:.1f} s")
    for node in cluster.running:
        say("  node {}: VmRSS {} kB, VmHWM {} kB".format(node, *cluster.memory(node)))
    for fault in load.faults:
        verdicts.add(False, fault)
    for node, text in cluster.has_ended().items():
        verdicts.add(False, f"node {node} ended: {text}")


def main():
    end_on_signals()
    verdicts = Verdicts()
    share = int(sys.argv[2]) if len(sys.argv) > 2 else 1
    slow_and_stopped(sys.argv[1], share, verdicts)
    halves_and_dead(sys.argv[1], share, verdicts)
    say("verdicts:")
    for line in verdicts.lines:
        say(line)
    sys.exit(not verdicts.is_good)


if __name__ == "__main__":
    main()
