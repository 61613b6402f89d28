#!/usr/bin/env python3
"""Greets a node by mutated Hellos, each over a connection of its own and with a message behind it, and checks that the node goes
on, takes none of these messages, and holds no place for a Hello that drips.

    mutated_hellos.py crates/ccnode/out/ccnode [COUNT [SEED]]

The node is one of three of the cluster `tools`; nothing listens at its peers. Mutations change, insert, drop and double bytes of a
valid Hello of node 2. The message is of a node that none of them greets as. COUNT is 1,000,000, which takes some minutes. The
status is 1 where something isn't so."""
import multiprocessing
import random
import re
import socket
import struct
import sys
import time

from nodes import LOOPBACK, Cluster, Session, Verdicts, end_on_signals, framed, free_ports, say

# The node that none of the Hellos greets as: too many bytes would have to change together.
STRANGER = 0x5A5A5A5A
WORKERS = 4
# How long a Hello that drips may hold a place, and how much later it may be seen to be closed, in seconds.
SLOW, LATE = 5.0, 1.5


def hello(source, target):
    """A Hello by docs/FORMATS.md, with beta 2/3 and gamma 4/5, birth 7 and run 9."""
    name = b"tools"
    body = bytes([33, len(name)]) + name + struct.pack(">II", source, target) + struct.pack(">IIII", 2, 3, 4, 5)
    return framed(body + struct.pack(">QQQ", 7, 9, 0))


def message():
    """The first post of the stranger: Query 1 STRANGER."""
    return framed(struct.pack(">BIQBQI", 1, STRANGER, 1, 7, 1, STRANGER))


def mutated(rng, frame):
    frame = bytearray(frame)
    for _ in range(rng.choice((1, 1, 1, 2, 3))):
        place = rng.randrange(len(frame)) if frame else 0
        match rng.randrange(5):
            case 0 if frame:
                frame[place] = rng.randrange(256)
            case 1 if frame:
                frame[place] ^= 1 << rng.randrange(8)
            case 2:
                frame.insert(place, rng.randrange(256))
            case 3 if frame:
                del frame[place]
            case _:
                frame[place:place] = frame[place : place + rng.randrange(1, 9)]
    return bytes(frame)


def greet_all(port, seed, count, results):
    """How many Hellos were answered by each kind of frame, or by none."""
    rng, valid, behind = random.Random(seed), hello(2, 1), message()
    told = {}
    for _ in range(count):
        kind = answer_to(port, mutated(rng, valid) + behind)
        told[kind] = told.get(kind, 0) + 1
    results.put(told)


def answer_to(port, frames):
    with socket.create_connection((LOOPBACK, port), timeout=20) as connection:
        # No socket of these waits for a minute once it is closed.
        connection.setsockopt(socket.SOL_SOCKET, socket.SO_LINGER, struct.pack("ii", 1, 0))
        try:
            connection.sendall(frames)
            connection.shutdown(socket.SHUT_WR)
            answer = b""
            while part := connection.recv(64):
                answer += part
        except (ConnectionError, BrokenPipeError):
            return "closed"
    return {34: "Welcome", 35: "Unwelcome"}.get(answer[4], "other") if len(answer) > 4 else "closed"


def greet(port, count, seed):
    results = multiprocessing.Queue()
    workers = [
        multiprocessing.Process(target=greet_all, args=(port, seed + place, count // WORKERS, results)) for place in range(WORKERS)
    ]
    for worker in workers:
        worker.start()
    told = {}
    for _ in workers:
        for kind, number in results.get().items():
            told[kind] = told.get(kind, 0) + number
    for worker in workers:
        worker.join()
    return told


def drip(port):
    """For how long each of ten Hellos holds its place that come at a byte a second."""
    frame = hello(2, 1)
    connections = [socket.create_connection((LOOPBACK, port), timeout=0.01) for _ in range(10)]
    start, held = time.monotonic(), {}
    for second in range(12):
        for place, connection in enumerate(connections):
            if place in held:
                continue
            try:
                connection.send(frame[second : second + 1])
                if connection.recv(1) == b"":
                    held[place] = time.monotonic() - start
            except TimeoutError:
                pass
            except ConnectionError:
                held[place] = time.monotonic() - start
        time.sleep(1)
    for connection in connections:
        connection.close()
    return [held.get(place, 12.0) for place in range(10)]


def main():
    end_on_signals()
    count = int(sys.argv[2]) if len(sys.argv) > 2 else 1_000_000
    seed = int(sys.argv[3]) if len(sys.argv) > 3 else random.randrange(1 << 30)
    verdicts = Verdicts()
    with Cluster(sys.argv[1], 3, beta="2/3") as cluster:
        page, = free_ports(1)
        words = cluster.run_words
        cluster.run_words = lambda node: [*words(node), "--status", f"{LOOPBACK}:{page}", "--log", "error"]
        cluster.start(1)
        time.sleep(2)
        verdicts.add(answer_to(cluster.ports[1], hello(2, 1)) == "Welcome", "a Hello that isn't mutated is welcome")
        start = time.monotonic()
        told = greet(cluster.ports[1], count, seed)
        say(f"{sum(told.values())} mutated Hellos in {time.monotonic() - start:.0f} s, seed {seed}: {told}")
        verdicts.add(not cluster.has_ended(), f"the node goes on: {cluster.has_ended() or 'it runs'}")
        _, shown = cluster.does(["status", f"{LOOPBACK}:{page}", "--json"])
        verdicts.add(shown.startswith("{") and str(STRANGER) not in shown, "none of the messages was taken")
        heard = re.findall(r'"heard":"(\d+)"', shown)
        verdicts.add(heard == ["0", "0"], f"nothing was heard of a peer: {heard}")
        held = drip(cluster.ports[1])
        verdicts.add(max(held) <= SLOW + LATE, f"a Hello that drips holds its place for {max(held):.1f} s at most")
        Session(cluster.address(1), 5).close()
    sys.exit(not verdicts.is_good)


if __name__ == "__main__":
    main()
