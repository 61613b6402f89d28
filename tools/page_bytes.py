#!/usr/bin/env python3
"""Holds running nodes to what docs/FORMATS.md says to the author of a client.

    page_bytes.py crates/ccnode/out/ccnode

The frames of that page are read out of it and sent as they stand there, and what comes back has to be what stands
behind them. Then what it says of requests and their numbers, of what closes a connection, of an ask that pends, and of
a node that hasn't joined. It takes a few seconds. The status is 1 where something isn't so.
"""
import re
import socket
import subprocess
import sys
import time

import nodes
from nodes import HERE, LOOPBACK, Cluster, Session, Verdicts, client, end_on_signals

PAGE = HERE.parent / "docs" / "FORMATS.md"
# A frame of the page: its kind's name, and its bytes, which may go on in a second line.
FRAME = re.compile(r"^    (Ask|Reply|Refused|Retire|Share) +([0-9A-F ]+)(?:\n {13}([0-9A-F ]+))?$", re.M)
NOTHING, CLOSED = "nothing", "it is closed"
# The session of the page's frames, and its last request before they begin: two stores, and readings.
SESSION, LAST, STORES = 7, 41, 2
STALE, SKIP, BUSY, LEFT, NOT_JOINED, TOO_MANY, NOTHING_TO_ACK = 11, 12, 13, 1, 4, 9, 7
MOST_SESSIONS = 256


def frames_of_page():
    """Each frame that the page has of a client, an operator and a node, in its order: its name and its bytes."""
    return [(name, bytes.fromhex(first + rest)) for name, first, rest in FRAME.findall(PAGE.read_text())]


def connected(port):
    return socket.create_connection((LOOPBACK, port), timeout=5)


def next_frame(connection, seconds=10.0):
    """The bytes of the next frame, or that nothing came, or that the connection was closed."""
    connection.settimeout(seconds)
    try:
        body = client.read_frame(connection)
    except TimeoutError:
        return NOTHING
    except ConnectionError:
        return CLOSED
    return nodes.framed(body)


def told(connection):
    """What comes next: `answer` and its bytes, or `refused`, the number and what it carries."""
    frame = next_frame(connection)
    if isinstance(frame, str):
        return frame
    if frame[4] == 4:
        return f"answer {frame[21:].hex()}"
    return f"refused {frame[21]} {int.from_bytes(frame[22:], 'big')}"


def ask_frame(session, request, *words):
    return client.ask_frame(session, request, client.command_bytes(words))


def bare_ask(session, request, command):
    return client.ask_frame(session, request, bytes.fromhex(command))


class Talk:
    """A connection, and verdicts on what is said over it."""

    def __init__(self, verdicts, port):
        self.verdicts, self.connection = verdicts, connected(port)

    def expect(self, what, sent, wanted):
        """What comes next, once this was sent."""
        if sent:
            self.connection.sendall(sent)
        came = told(self.connection)
        self.verdicts.add(came == wanted, f"{what}: {came}{'' if came == wanted else f', and not {wanted}'}")

    def expect_nothing(self, what, sent=b""):
        if sent:
            self.connection.sendall(sent)
        came = next_frame(self.connection, 0.5)
        self.verdicts.add(came == NOTHING, f"{what}: {came if isinstance(came, str) else came.hex()}")


def bring_to_page(cluster, talk):
    """Session 7 comes to the number that it has on the page."""
    for request in range(1, LAST + 1):
        words = ["store", "x"] if request <= STORES else ["readflag"]
        talk.connection.sendall(ask_frame(SESSION, request, *words))
        told(talk.connection)


def say_page(verdicts, cluster, talk):
    """What the page has a client say, and the Reply or Refused behind it: Stored, where that of a write isn't there."""
    frames = frames_of_page()
    for (name, sent), (answer, wanted) in zip(frames, [*frames[1:], ("", b"")]):
        if name != "Ask":
            continue
        talk.connection.sendall(sent)
        came = next_frame(talk.connection)
        if answer not in ("Reply", "Refused"):
            wanted = bytes.fromhex("00000012 04") + sent[5:21] + b"\x01"
        verdicts.add(came == wanted, f"{sent.hex()}: {came if isinstance(came, str) else came.hex()}")
        if sent[21] == 7:
            Session(cluster.address(1), 8).ask(["add", "5"])
    retires = [sent for name, sent in frames if name == "Retire"]
    operator = Talk(verdicts, cluster.ports[1])
    operator.expect_nothing("a node is retired", retires[0])
    operator.expect("once more", retires[1], f"refused {LEFT} 0")
    shares = [sent for name, sent in frames if name == "Share"]
    operator.expect_nothing("a node is told its share", shares[0])
    operator.expect("once more", shares[1], f"refused {NOTHING_TO_ACK} 0")


def number_requests(talk, last):
    """What requests around the last one are told, and that a refusal uses up no number."""
    talk.expect("the last request again", ask_frame(SESSION, last, "readset"), "answer 05000200000005000003e9")
    talk.expect("and with another command", ask_frame(SESSION, last, "store", "x"), f"refused {STALE} {last}")
    talk.expect("one beyond the next", ask_frame(SESSION, last + 2, "flag"), f"refused {SKIP} {last}")
    talk.expect("one before the last", ask_frame(SESSION, last - 1, "flag"), f"refused {STALE} {last}")
    talk.expect("the next one, with the empty text", bare_ask(SESSION, last + 1, "0100"), "answer 01")
    talk.expect("bytes that are no UTF-8", bare_ask(SESSION, last + 2, "0102ff00"), "answer 01")
    talk.expect("another session over the same connection", ask_frame(11, 1, "readflag"), "answer 0400")


def close_connections(verdicts, cluster):
    """What closes a connection, and says nothing."""
    frames = dict(frames_of_page())
    for what, sent in (
        ("a kind that means nothing", nodes.framed(b"\x63")),
        ("a length of 0", bytes(4)),
        ("a length above 65,536", bytes.fromhex("00010001")),
        ("a byte too many", nodes.framed(b"\x06\x00")),
        ("a share of 0", nodes.framed(b"\x25\x00")),
        ("a share of 33", nodes.framed(b"\x25\x21")),
        ("a text of 65 bytes", bare_ask(SESSION, 1, "0141" + "78" * 65)),
        ("a Reply", frames["Reply"]),
        ("a Refused", frames["Refused"]),
    ):
        Talk(verdicts, cluster.ports[1]).expect(what, sent, CLOSED)
    half = Talk(verdicts, cluster.ports[1])
    half.connection.sendall(ask_frame(12, 1, "flag"))
    half.connection.shutdown(socket.SHUT_WR)
    half.expect("who has closed its sending half is answered", b"", "answer 01")
    half.expect("and then", b"", CLOSED)


def use_up_sessions(verdicts, cluster):
    talk, session, came = Talk(verdicts, cluster.ports[1]), 5000, ""
    while not came.startswith("refused") and session < 5000 + MOST_SESSIONS:
        session += 1
        talk.connection.sendall(ask_frame(session, 1, "readflag"))
        came = told(talk.connection)
    verdicts.add(came == f"refused {TOO_MANY} 0", f"a session too many: {came}")
    talk.expect("under 0", ask_frame(session, 0, "readflag"), f"refused {TOO_MANY} 0")


def one_node(verdicts, program):
    with Cluster(program, 1, name=None) as cluster:
        cluster.start(1)
        cluster.wait_until_ready()
        talk = Talk(verdicts, cluster.ports[1])
        talk.expect_nothing("nobody greets")
        talk.expect("a session that never asked", ask_frame(SESSION, 0, "readflag"), f"refused {STALE} 0")
        bring_to_page(cluster, talk)
        say_page(verdicts, cluster, talk)
        number_requests(talk, LAST + 7)
        close_connections(verdicts, cluster)
        use_up_sessions(verdicts, cluster)


def pending(verdicts, program):
    """An ask that waits for node 2, and what its session is told meanwhile."""
    with Cluster(program, 2, beta="1/1", name=None) as cluster:
        cluster.start_all()
        cluster.wait_until_ready()
        cluster.kill(2)
        first, second = Talk(verdicts, cluster.ports[1]), Talk(verdicts, cluster.ports[1])
        first.expect_nothing("a store pends", ask_frame(SESSION, 1, "store", "a"))
        first.expect("its session under 0", ask_frame(SESSION, 0, "readflag"), f"refused {STALE} 1")
        first.expect("its session's next", ask_frame(SESSION, 2, "store", "b"), f"refused {BUSY} 0")
        second.expect_nothing("the store again over a second connection", ask_frame(SESSION, 1, "store", "a"))
        cluster.start(2)
        second.expect("once node 2 runs, over the second", b"", "answer 01")
        first.expect_nothing("and over the first")
        first.expect("the refused number, with another command", ask_frame(SESSION, 2, "max", "9"), "answer 01")


def outside(verdicts, program):
    """A node that hasn't joined, and then has left."""
    with Cluster(program, 1, name=None) as cluster:
        folder, port = cluster.folder / "entrant", nodes.free_ports(1)[0]
        folder.mkdir()
        subprocess.run([program, "format", folder, "9", "--contacts", "1"], check=True, capture_output=True)
        words = [program, "run", folder, "--listen", f"{LOOPBACK}:{port}"]
        with subprocess.Popen(words, stdout=subprocess.DEVNULL, stderr=subprocess.DEVNULL) as running:
            try:
                time.sleep(1)
                talk = Talk(verdicts, port)
                refused = f"refused {NOT_JOINED} 0"
                talk.expect("a node that hasn't joined, under 0", ask_frame(SESSION, 0, "flag"), refused)
                talk.expect("and under 1", ask_frame(SESSION, 1, "flag"), refused)
                talk.expect_nothing("it leaves", nodes.framed(b"\x06"))
                talk.expect("once more", nodes.framed(b"\x06"), f"refused {LEFT} 0")
                talk.expect("an ask then", ask_frame(SESSION, 0, "flag"), f"refused {LEFT} 0")
            finally:
                running.kill()


def main():
    end_on_signals()
    program, verdicts = str(sys.argv[1]), Verdicts()
    for shown in (one_node, pending, outside):
        shown(verdicts, program)
    sys.exit(not verdicts.is_good)


if __name__ == "__main__":
    main()
