#!/usr/bin/env python3
"""Has clients shut down their sending half behind an ask, and checks that each gets its answer and then the end.

usage: half_close.py PROGRAM

Over a connection of its own each, 200 asks repeat a session's last request, as a client does that lost its answer, and 200
ask the next one; at a node that is idle, and at one where eight other clients store. It takes some seconds, ends all that it
started, and its status is 1 where an answer or an end is missing.
"""
import socket
import sys

import nodes
from nodes import Cluster, Load, Session, Verdicts, client

ASKS, SESSION, CLIENTS = 200, 7, 8
# A connection that brings nothing for so many seconds has no end.
PATIENCE = 5
COMMAND = client.command_bytes(["store", "a"])


def outcome(address, request):
    """What comes of a request behind which the sending half is shut down."""
    with socket.create_connection(address, timeout=PATIENCE) as connection:
        connection.sendall(client.ask_frame(SESSION, request, COMMAND))
        connection.shutdown(socket.SHUT_WR)
        told = set()
        try:
            while True:
                frame = client.read_frame(connection)
                told.add("answered" if frame[0] == 4 else f"refused {frame[17]}")
        except ConnectionError:
            return " and ".join(sorted(told)) or "the end alone"
        except TimeoutError:
            return " and ".join(sorted(told | {"no end"}))


def try_asks(verdicts, cluster, when):
    """A repeat of the session's last request each time, and then a new one each time."""
    asking = Session(cluster.address(1), SESSION)
    asking.ask(["store", "a"])
    asking.close()
    for what, step in (("a repeat", 0), ("a new ask", 1)):
        told = []
        for _ in range(ASKS):
            asking.request += step
            told.append(outcome(asking.address, asking.request))
        words = ", ".join(f"{told.count(word)} {word}" for word in sorted(set(told)))
        verdicts.add(set(told) == {"answered"}, f"{when}, the sending half is shut down behind {what}: {words}")


def main(program):
    verdicts = Verdicts()
    with Cluster(program, 1) as cluster:
        cluster.start(1)
        cluster.wait_until_ready()
        try_asks(verdicts, cluster, "idle")
        load = Load(cluster, [1], CLIENTS)
        try_asks(verdicts, cluster, "under load")
        load.end()
    sys.exit(not verdicts.is_good)


if __name__ == "__main__":
    if len(sys.argv) != 2:
        sys.exit(__doc__)
    nodes.end_on_signals()
    main(sys.argv[1])
