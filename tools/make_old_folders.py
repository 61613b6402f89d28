#!/usr/bin/env python3
"""Makes the folders of nodes that a release leaves behind, and that each later program has to open.

    make_old_folders.py crates/ccnode/out/ccnode

It is run once for a release, by the program of that release, and what it makes is committed: the folders of
crates/golden_files/data/VERSION. What each node was asked stands below, and the lines that `golden_files` has to print of
it are written by that (crates/golden_files/README.md). For each folder it prints what its bytes say by docs/FORMATS.md,
read here without the program. It needs half a minute, and ends what it started.
"""
import collections
import pathlib
import shutil
import socket
import struct
import subprocess
import sys
import time

import nodes
from nodes import HERE, LOOPBACK, Cluster, Session, client, end_on_signals, say

DATA = HERE.parent / "crates" / "golden_files" / "data"
FILES = ("side-a", "side-b", "lock")
EVENTS = {1: "Enter", 2: "Leave", 3: "Deliver", 4: "Acked", 5: "Ask", 6: "Retire", 32: "Lapse", 33: "Snapshot"}
OPEN_GATE = 0xA5
# Where the version byte of a side stands, and where its state begins.
VERSION_AT, STATE_AT = 9, 14
# Above how many bytes a node moves to its other side.
PLENTY = 4_194_304
# The fresh state of member 1 of 1, and in it the count of asks that wait, which version 1 doesn't have.
FRESH_BYTES, WAITING_AT = 119, 74
# What four sessions ask one after the other.
HELD = ((11, ["store", "first"]), (12, ["store", "second"]), (13, ["max", "5"]), (14, ["collect"]))


class Entering(Cluster):
    """Three members, and node 4, which enters."""

    def format_all(self):
        for node in self.nodes:
            words = ["--initial", "1,2,3"] if node < 4 else ["--contacts", "1,2,3", "--share", "2"]
            format_folder(self.program, self.folder / f"node-{node}", node, *words, "--beta", self.beta)


def format_folder(program, folder, node, *words):
    folder.mkdir()
    subprocess.run([program, "format", folder, str(node), *words], check=True, capture_output=True)


def connected(cluster, node):
    return socket.create_connection((LOOPBACK, cluster.ports[node]), timeout=30)


def does(cluster, *words):
    status, text = cluster.does(words)
    assert status == 0, text


def ask_all(cluster, node, session, *commands):
    client_of_it = Session(cluster.address(node), session)
    for words in commands:
        client_of_it.ask(words)
    client_of_it.close()


def held(path):
    """The bytes of a side up to the closed gate that ends its records, and with it. What lies behind that means nothing."""
    side = path.read_bytes()
    if side[0] != OPEN_GATE:
        return side[:1]
    place = STATE_AT + struct.unpack_from(">I", side, VERSION_AT + 1)[0]
    while side[place] == OPEN_GATE:
        place += 1 + 4 + struct.unpack_from(">I", side, place + 1)[0]
    return side[: place + 1]


def settle():
    """What makes nothing, as an acknowledgement, is flushed a second later at most."""
    time.sleep(1.5)


def keep(cluster, node, folder):
    """Ends a node by SIGKILL, and takes its folder over."""
    cluster.kill(node)
    shutil.copytree(cluster.folder / f"node-{node}", folder)


def copied(folder, like, side_a):
    """A folder like another one, but for its side A."""
    shutil.copytree(like, folder)
    (folder / "side-a").write_bytes(side_a)


def make_fresh(program, target):
    """A member of one, and an entrant: formatted, and never run."""
    format_folder(program, target / "fresh", 1, "--initial", "1")
    format_folder(program, target / "entrant", 4, "--contacts", "1")


def make_stored(program, target):
    """A member of one that stored each kind of value in session 7, and read in session 8; and what may become of it."""
    with Cluster(program, 1, name=None) as cluster:
        cluster.start(1)
        ask_all(cluster, 1, 7, ["store", "colour=blue"], ["max", "120"], ["flag"], ["add", "1001"], ["add", "5"])
        ask_all(cluster, 1, 8, ["collect"], ["readset"])
        ask_all(cluster, 1, 7, ["max", "95"], ["store", "two words"])
        settle()
        keep(cluster, 1, target / "stored")
        cluster.start(1)
        ask_all(cluster, 1, 7, ["store", "torn"])
        cluster.kill(1)
        after = held(cluster.folder / "node-1" / "side-a")
    make_wrong(target, after)


def make_wrong(target, after):
    """The folder `stored`, of which a record was torn by a power cut, the last byte is lost, or the version isn't
    known; and the same in version 1. `after` is its side A with one more record."""
    stored = target / "stored"
    side = held(stored / "side-a")
    size = struct.unpack_from(">I", after, len(side))[0]
    torn = side + after[len(side) : len(side) + 4 + size - 5]
    copied(target / "torn", stored, torn)
    copied(target / "damaged", stored, side[:-1])
    copied(target / "newer", stored, side[:VERSION_AT] + b"\x21" + side[VERSION_AT + 1 :])
    copied(target / "version-1", stored, in_version_1(side))


def in_version_1(side):
    """The same side as a program wrote it from before asks waited."""
    state, records = side[STATE_AT : STATE_AT + FRESH_BYTES], side[STATE_AT + FRESH_BYTES :]
    assert side[VERSION_AT] == 2 and state[WAITING_AT] == 0
    head = side[:VERSION_AT] + struct.pack(">BI", 1, FRESH_BYTES - 1)
    return head + state[:WAITING_AT] + state[WAITING_AT + 1 :] + records


class Peers:
    """What nodes 2 and 3 say to node 1, in place of nodes."""

    def __init__(self, cluster):
        self.side = cluster.folder / "node-1" / "side-a"
        self.connections = {peer: connected(cluster, 1) for peer in (2, 3)}
        self.posts = 0

    def post(self, *messages):
        """Node 2 posts these."""
        frames = []
        for message in messages:
            self.posts += 1
            frames.append(nodes.post_frame(2, self.posts, message))
        self.connections[2].sendall(b"".join(frames))

    def acknowledge(self, number):
        """Both have what they were sent up to that number."""
        for peer, connection in self.connections.items():
            connection.sendall(nodes.ack_frame(peer, number))

    def fill(self, most):
        """Node 2 answers queries of node 3, which node 1 hears too, until side A has nearly so many bytes."""
        reply = b"\x08" + view_of_two() + struct.pack(">QI", 1, 3)
        # The event of a post, and a record for each of them at most.
        size = len(reply) + 13 + 4 + 6
        while (count := (most - len(held(self.side))) // size) > 0:
            self.post(*[reply] * count)
            self.wait_until_still()

    def overflow(self):
        """The same until it has more than makes the node move over."""
        reply = b"\x08" + view_of_two() + struct.pack(">QI", 1, 3)
        self.post(*[reply] * ((PLENTY - len(held(self.side))) // len(reply) + 1))

    def wait_until_still(self):
        before, size = None, len(held(self.side))
        while before != size:
            time.sleep(1.1)
            before, size = size, len(held(self.side))


def view_of_two():
    """Two rows: node 2 with the greatest value that there is, and node 3."""
    numbers = range(32)
    first = struct.pack(">IQB", 2, 5, 64) + b"abcdefgh" * 8 + struct.pack(">QBB", 2**64 - 1, 1, 32)
    first += struct.pack(">32I", *numbers)
    return struct.pack(">H", 2) + first + struct.pack(">IQB", 3, 1, 5) + b"other" + struct.pack(">QBB", 0, 0, 0)


def store_ack(tag):
    """That node 1's store of this tag was taken."""
    return b"\x0a" + struct.pack(">QI", tag, 1)


def start_first(cluster):
    """Starts node 1, and waits until it listens."""
    cluster.start(1)
    end = time.monotonic() + 10
    while "node 1 runs" not in cluster.log(1):
        assert time.monotonic() < end, cluster.log(1)
        time.sleep(0.02)


def hold_up(cluster, peers):
    """Asks in four sessions. Node 2 acknowledges the first store, which is done then, and nothing of what begins."""
    with connected(cluster, 1) as asking:
        for session, words in HELD:
            asking.sendall(client.ask_frame(session, 1, client.command_bytes(words)))
        time.sleep(0.3)
        peers.post(store_ack(1))
        told = client.read_frame(asking)
        assert told[0] == 4 and told[8] == HELD[0][0], told


def make_rounds(program, target):
    """A member of three, of which no other runs, with share 32: two writes in a round that pends, a read that waits."""
    with Cluster(program, 3, beta="2/3", share=32, name=None) as cluster:
        start_first(cluster)
        hold_up(cluster, Peers(cluster))
        settle()
        keep(cluster, 1, target / "rounds")


def make_moved(program, target, name, share):
    """The same once node 1 knows what two others stored, and has moved to its other side meanwhile."""
    with Cluster(program, 3, beta="2/3", share=share, name=None) as cluster:
        start_first(cluster)
        peers = Peers(cluster)
        peers.post(b"\x09" + view_of_two() + struct.pack(">QI", 1, 2))
        time.sleep(0.3)
        peers.acknowledge(1)
        peers.fill(PLENTY - 4096)
        hold_up(cluster, peers)
        peers.overflow()
        wait_until_moved(peers.side)
        keep(cluster, 1, target / name)
        say(f"{name}: node 2 posted {peers.posts}")


def wait_until_moved(side):
    """Until a side is one closed byte."""
    end = time.monotonic() + 5
    while side.stat().st_size != 1:
        assert time.monotonic() < end, "the node didn't move over"
        time.sleep(0.01)


def make_entered(program, target):
    """Node 4 enters, 3 leaves, and 2 is retired; both that are left store meanwhile."""
    with Entering(program, 4, beta="2/3") as cluster:
        for node in (1, 2, 3):
            cluster.start(node)
        ask_all(cluster, 1, 7, ["store", "early"])
        settle()
        cluster.start(4)
        does(cluster, "ask", cluster.address(4), "7", "store", "late", "--wait")
        ask_all(cluster, 4, 8, ["collect"])
        settle()
        does(cluster, "leave", cluster.address(3))
        settle()
        cluster.kill(3)
        cluster.kill(2)
        for node in (1, 4):
            does(cluster, "retire", cluster.address(node), "2", "--alive")
        ask_all(cluster, 1, 7, ["max", "9"])
        settle()
        keep(cluster, 4, target / "entered")
        keep(cluster, 1, target / "left-behind")


def make_absent(program, target):
    """Member 1 of two, of which one is enough, while 2 never runs: what is kept for it lapses, a snapshot is made."""
    with Cluster(program, 2, beta="1/2", name=None) as cluster:
        cluster.start(1)
        ask_all(cluster, 1, 7, *(["store", f"w{count}"] for count in range(1, 41)))
        time.sleep(4.5)
        ask_all(cluster, 1, 7, *(["store", f"w{count}"] for count in range(41, 44)))
        settle()
        keep(cluster, 1, target / "absent")


def told_of_side(side):
    """What the bytes of a side say."""
    if side[:1] != bytes([OPEN_GATE]):
        return "closed"
    generation, version, length = struct.unpack_from(">QBI", side, 1)
    head = f"armed {generation}, version {version}, a state of {length} bytes"
    try:
        return f"{head}, {told_of_records(side, STATE_AT + length)}"
    except (IndexError, struct.error):
        return f"{head}, cut off"


def told_of_records(side, at):
    """The records that count, from the first one's gate on, and their events by kind."""
    records, events = 0, collections.Counter()
    while side[at] == OPEN_GATE:
        size, count = struct.unpack_from(">IB", side, at + 1)
        place = at + 6
        for _ in range(count):
            events[EVENTS[side[place + 4]]] += 1
            place += 4 + struct.unpack_from(">I", side, place)[0]
        at, records = at + 5 + size, records + 1
    kinds = ", ".join(f"{count} {kind}" for kind, count in sorted(events.items()))
    behind = len(side) - at - 1
    return f"{records} records of {sum(events.values())} events ({kinds}), {behind} bytes behind the last gate"


def main():
    end_on_signals()
    program = str(pathlib.Path(sys.argv[1]).resolve())
    version = subprocess.run([program, "--version"], check=True, capture_output=True, text=True).stdout.split()[1]
    target = DATA / version
    target.mkdir(parents=True)
    make_fresh(program, target)
    make_stored(program, target)
    make_rounds(program, target)
    make_moved(program, target, "moved", 1)
    make_moved(program, target, "moved-rounds", 32)
    make_entered(program, target)
    make_absent(program, target)
    for folder in sorted(target.iterdir()):
        for name in FILES:
            (folder / name).chmod(0o644)
        sides = [told_of_side((folder / name).read_bytes()) for name in FILES[:2]]
        say(f"{version}/{folder.name}: A {sides[0]}; B {sides[1]}")


if __name__ == "__main__":
    main()
