#!/usr/bin/env python3
"""Makes each mistake with addresses, ids and folders in a running cluster with clients, and checks that it is named within two
seconds, that nothing is lost once it is mended, and that an old copy of a folder never answers.

    wrong_places.py crates/ccnode/out/ccnode

Three nodes of the cluster `tools`, of which an operation waits for two, and clients as in kill_cluster.py. Two addresses are
exchanged in one node's list; a node of another cluster takes a peer's address; a second folder is formatted under an id; a
copy of a folder is started beside its node, and another once the node has gone on. In an idle cluster of its own a copy that isn't
behind is started beside its node. It takes a minute and a half, and its status is 1 where something isn't so."""
import re
import shutil
import subprocess
import sys
import threading
import time

from kill_cluster import PATIENCE, Told, check_end, start_clients
from nodes import Cluster, NoAnswer, Session, Verdicts, end_on_signals, free_ports, say

# How soon a mistake has to be named, and how soon all goes on once it is mended, in seconds.
NAMED, MENDED = 2.0, 5.0


class Misled(Cluster):
    """Nodes that read their peers from files, which are changed."""

    def run_words(self, node):
        self.put_peers(node)
        return ["run", f"node-{node}", "--listen", self.address(node), "--peers-file", f"peers-{node}"]

    def put_peers(self, node, **ports):
        """Writes the list of a node, where these peers have other ports: `n2=7003`."""
        places = {f"n{peer}": port for peer, port in self.ports.items() if peer in self.nodes} | ports
        lines = "".join(f"{name[1:]}=127.0.0.1:{port}\n" for name, port in places.items())
        (self.folder / f"peers-{node}").write_text(lines)

    def other(self, name, words, folder):
        """Starts a program on another folder; its log is that name."""
        with open(self.folder / name, "ab") as log:
            return subprocess.Popen([self.program, "run", folder, *words], cwd=self.folder, stdin=subprocess.DEVNULL,
                                    stdout=log, stderr=log, start_new_session=True)


def is_said(path, pattern, since, seconds):
    """After how many seconds a log says that, behind so many characters; None where it doesn't in time."""
    start = time.monotonic()
    while time.monotonic() - start < seconds:
        if re.search(pattern, path.read_text()[since:]):
            return time.monotonic() - start
        time.sleep(0.02)
    return None


def told(seconds):
    return "isn't named" if seconds is None else f"is named after {seconds:.1f} s"


def both_say(cluster, verdicts, what, patterns):
    """Each of these logs says its part in time, from where it had come to: a log, a length, what it says."""
    for path, since, pattern in patterns:
        after = is_said(path, pattern, since, NAMED + 2.5)
        # The list of peers is read once a second, and taken at the second reading that is the same.
        verdicts.add(after is not None, f"{what}: {path.name} {told(after)}")


def length(path):
    return len(path.read_text()) if path.exists() else 0


def exchanged(cluster, verdicts):
    """Two addresses are exchanged in the list of node 1."""
    logs = {node: cluster.folder / f"log-{node}" for node in cluster.nodes}
    marks = {node: length(logs[node]) for node in cluster.nodes}
    cluster.put_peers(1, n2=cluster.ports[3], n3=cluster.ports[2])
    both_say(cluster, verdicts, "two addresses exchanged in one list", [
        (logs[1], marks[1], r"isn't taken at \S+, where it looks for node 2: node 3 "),
        (logs[2], marks[2], r"doesn't take node 1, .*: it looks for another node here"),
    ])
    time.sleep(3)
    mark = length(logs[1])
    cluster.put_peers(1)
    after = is_said(logs[1], "node 1 is connected to node 2", mark, MENDED + 2.5)
    verdicts.add(after is not None, f"the list is mended: {'not connected' if after is None else f'connected after {after:.1f} s'}")


def another_cluster(cluster, verdicts):
    """Node 3 of another cluster listens where node 1 looks for node 3."""
    port, = free_ports(1)
    (cluster.folder / "other-3").mkdir()
    cluster.does(["format", "other-3", "3", "--initial", "1,2,3", "--beta", "2/3", "--cluster", "others"])
    stranger = cluster.other("log-other", ["--listen", f"127.0.0.1:{port}"], "other-3")
    try:
        time.sleep(0.5)
        log = cluster.folder / "log-1"
        mark = length(log)
        cluster.put_peers(1, n3=port)
        both_say(cluster, verdicts, "a node of another cluster", [
            (log, mark, "where it looks for node 3: node 3 is of another cluster"),
            (cluster.folder / "log-other", 0, "doesn't take node 1, .*: it greets from another cluster"),
        ])
    finally:
        stranger.kill()
        stranger.wait()
        cluster.put_peers(1)


def second_folder(cluster, verdicts):
    """A second folder under the id of node 3 is started, which names the same peers."""
    port, = free_ports(1)
    (cluster.folder / "second-3").mkdir()
    cluster.does(["format", "second-3", "3", "--initial", "1,2,3", "--beta", "2/3", "--cluster", "tools"])
    peers = ",".join(f"{node}={cluster.address(node)}" for node in (1, 2))
    log = cluster.folder / "log-1"
    mark = length(log)
    second = cluster.other("log-second", ["--listen", f"127.0.0.1:{port}", "--peers", peers], "second-3")
    try:
        both_say(cluster, verdicts, "a second folder under one id", [
            (log, mark, "doesn't take node 3, .*: it greets from another folder than before"),
            (cluster.folder / "log-second", 0, "isn't taken at .*: node 1 knows another folder of this node's id"),
        ])
        try:
            answer = Session(f"127.0.0.1:{port}", 1).ask(["store", "lost"], 3)
            verdicts.add(False, f"the second folder answers a store: {answer}")
        except NoAnswer:
            verdicts.add(True, "the second folder answers no store")
    finally:
        second.kill()
        second.wait()


def copies(cluster, verdicts):
    """A copy of the folder of node 3, which went on since, is started beside it, and then in its place."""
    port, = free_ports(1)
    peers = ",".join(f"{node}={cluster.address(node)}" for node in (1, 2))
    for name in ("beside its node", "in place of its node"):
        take_copy(cluster)
        if name != "beside its node":
            cluster.kill(3)
        log = cluster.folder / "log-copy"
        mark, start = length(log), time.monotonic()
        copy = cluster.other("log-copy", ["--listen", f"127.0.0.1:{port}", "--peers", peers], "copy-3")
        answers, over = [], threading.Event()
        asking = threading.Thread(target=ask_for_text, args=(port, answers, over))
        asking.start()
        try:
            status = copy.wait(10)
        except subprocess.TimeoutExpired:
            status = None
            copy.kill()
            copy.wait()
        over.set()
        asking.join()
        after, said = time.monotonic() - start, log.read_text()[mark:]
        verdicts.add(status == 2 and re.search(r"OldCopy [12] \d+ \d+", said), f"an old copy {name}: status {status} after {after:.1f} s")
        verdicts.add(not answers, f"an old copy {name} answers nothing: {answers[:1]}")
        shutil.rmtree(cluster.folder / "copy-3")
    cluster.start(3)


def doubled(program, verdicts):
    """A copy of a folder is started beside its node in an idle cluster: neither is behind, and both are told."""
    with Misled(program, 3, beta="2/3") as cluster:
        cluster.start_all()
        cluster.wait_until_ready()
        cluster.kill(3)
        shutil.copytree(cluster.folder / "node-3", cluster.folder / "copy-3")
        (cluster.folder / "copy-3" / "lock").unlink()
        logs = {name: cluster.folder / f"log-{name}" for name in ("1", "3", "copy")}
        marks = {name: length(log) for name, log in logs.items()}
        cluster.start(3)
        time.sleep(1)
        port, = free_ports(1)
        peers = ",".join(f"{node}={cluster.address(node)}" for node in (1, 2))
        copy = cluster.other("log-copy", ["--listen", f"127.0.0.1:{port}", "--peers", peers], "copy-3")
        try:
            both_say(cluster, verdicts, "a copy that isn't behind", [
                (logs["1"], marks["1"], "is greeted by two processes in turn that are node 3"),
                (logs["3"], marks["3"], "that another process greets it in turn as node 3"),
                (logs["copy"], 0, "that another process greets it in turn as node 3"),
            ])
        finally:
            copy.kill()
            copy.wait()


def take_copy(cluster):
    """Copies the folder of node 3, which goes on: the copy is old two seconds later."""
    shutil.copytree(cluster.folder / "node-3", cluster.folder / "copy-3")
    (cluster.folder / "copy-3" / "lock").unlink()
    time.sleep(2)


def ask_for_text(port, answers, over):
    while not over.is_set():
        try:
            answers.append(Session(f"127.0.0.1:{port}", 2).ask(["collect"], 0.3))
        except NoAnswer:
            time.sleep(0.01)


def main():
    end_on_signals()
    verdicts, over = Verdicts(), threading.Event()
    with Misled(sys.argv[1], 3, beta="2/3") as cluster:
        cluster.start_all()
        cluster.wait_until_ready()
        checked = Told(cluster.nodes, PATIENCE)
        clients = start_clients(cluster, checked, over)
        try:
            for mistake in (exchanged, another_cluster, second_folder, copies):
                time.sleep(1)
                mistake(cluster, verdicts)
            time.sleep(3)
            over.set()
            for client in clients:
                client.join(checked.patience + 5)
            check_end(cluster, checked)
        finally:
            over.set()
            for client in clients:
                client.session.is_over = True
        verdicts.add(not checked.faults, f"{sum(checked.writes.values())} writes and {checked.collects} collects, "
                     f"{len(checked.faults)} faults")
    doubled(sys.argv[1], verdicts)
    say("all is so" if verdicts.is_good else "not all is so")
    sys.exit(not verdicts.is_good)


if __name__ == "__main__":
    main()
