#!/usr/bin/env python3
"""Sends single frames in the name of nodes that don't run, and shows what becomes of a cluster and of its clients.

    stray_frames.py crates/ccnode/out/ccnode

A post of a node 99 that nobody knows, a Query or a JoinEcho, reaches one node of a cluster of one and of three: the node
has to note it on standard error, and `ccnode retire` of 99, at once or once stores are held up, has to mend what it
spoiled. How many stores are answered until then, and what `ccnode ask` prints, is printed. Then the smaller ones: a
refused ask doesn't take another connection's reply, a client that ended its sending half gets its replies, a node that
listens at port 0 tells its port, and a peer's newer connection ends its older one. It takes three minutes at most. The
status is 1 where something isn't so.
"""
import contextlib
import re
import socket
import sys
import time

import nodes
from nodes import LOOPBACK, Cluster, NoAnswer, Session, Verdicts, client, end_on_signals, say

STRAY = 99
# What it sends: a question, and that it has become a member.
QUESTION, MEMBER = "a Query", "a JoinEcho"
MESSAGES = {QUESTION: nodes.query(1, STRAY), MEMBER: nodes.join_echo(STRAY)}
# What a node says of an id that it hears of for the first time.
HEARD_OF = r"node {node} heard of node {stray}, which is none of its peers, from 127\.0\.0\.1:(\d+)"
RUNS_AT = r"node {node} runs at 127\.0\.0\.1:(\d+)"
# How many stores are tried after a stray frame, and how long one may take before it counts as held up, in seconds.
STORES, PATIENCE = 300, 3.0
SESSION = 7
# What comes over a connection, beside replies and refusals, and the refusal of a request beyond the next.
NOTHING, CLOSED, SKIP = "nothing", "it is closed", 12


def connected(cluster, node):
    connection = socket.create_connection((LOOPBACK, cluster.ports[node]), timeout=10)
    connection.setsockopt(socket.IPPROTO_TCP, socket.TCP_NODELAY, 1)
    return connection


def told(connection, seconds):
    """What comes next over a connection: a reply or a refusal, that nothing came, or that it was closed."""
    connection.settimeout(seconds)
    try:
        frame = client.read_frame(connection)
    except TimeoutError:
        return NOTHING
    except ConnectionError:
        return CLOSED
    request = int.from_bytes(frame[9:17], "big")
    return f"request {request}: {client.answer_text(frame[17:]) if frame[0] == 4 else f'refused {frame[17]}'}"


def waited_for(cluster, node, pattern, seconds=5.0):
    """The number in what a node says, or None where it doesn't say it in time."""
    end = time.monotonic() + seconds
    while time.monotonic() < end:
        found = re.search(pattern, cluster.log(node))
        if found:
            return int(found[1])
        time.sleep(0.05)
    return None


def stores_until_held(cluster):
    """How many stores are answered at node 1 until one isn't in time."""
    session = Session(cluster.address(1), SESSION, patience=PATIENCE)
    try:
        for count in range(STORES):
            session.ask(["store", f"v{count}"], PATIENCE)
    except NoAnswer:
        return count
    finally:
        session.close()
    return STORES


def ask(cluster, node, session, seconds):
    words = ["ask", cluster.address(node), str(session), "store", "x", "--timeout", str(seconds)]
    return cluster.does(words)[1]


@contextlib.contextmanager
def with_stray(verdicts, program, count, name):
    """A cluster of which node 1 got a frame of the stray node, and what that is called."""
    what = f"{name} of node {STRAY} at one of {count}"
    with Cluster(program, count, name=None) as cluster:
        cluster.start_all()
        cluster.wait_until_ready()
        with connected(cluster, 1) as connection:
            port = connection.getsockname()[1]
            connection.sendall(nodes.post_frame(STRAY, 1, MESSAGES[name]))
            noted = waited_for(cluster, 1, HEARD_OF.format(node=1, stray=STRAY))
        verdicts.add(noted == port, f"{what}: the note names port {noted}, it came from {port}")
        yield cluster, what


def retire_all(verdicts, cluster, what):
    lines = [cluster.does(["retire", cluster.address(node), str(STRAY), "--alive"])[1] for node in cluster.nodes]
    verdicts.add(set(lines) == {f"retired {STRAY}"}, f"{what}: retire at each node: {', '.join(lines)}")


def retired_at_once(verdicts, program, count, name):
    with with_stray(verdicts, program, count, name) as (cluster, what):
        retire_all(verdicts, cluster, what)
        stores = stores_until_held(cluster)
        verdicts.add(stores == STORES, f"{what}, retired at once: {stores} of {STORES} stores answered")


def retired_late(verdicts, program, count, name):
    """A member that never answers holds an operation up for good that was begun before it was retired."""
    with with_stray(verdicts, program, count, name) as (cluster, what):
        say(f"    {what}: {stores_until_held(cluster)} of {STORES} stores answered")
        for node in cluster.nodes:
            say(f"    and then `ask` at node {node}: {ask(cluster, node, 8, 4)}")
        retire_all(verdicts, cluster, what)
        for node in cluster.nodes:
            line = ask(cluster, node, 9, 10)
            if name == MEMBER and node == 1:
                say(f"    `ask` at node 1, which had a store under way: {line}")
            else:
                verdicts.add(line == "Stored", f"{what}: after that `ask` at node {node}: {line}")


@contextlib.contextmanager
def held_up(program):
    """Two nodes of which an operation needs both, while node 2 doesn't run."""
    with Cluster(program, 2, beta="1/1", name=None) as cluster:
        cluster.start_all()
        cluster.wait_until_ready()
        cluster.kill(2)
        yield cluster


def store_frame(request):
    return client.ask_frame(SESSION, request, client.command_bytes(["store", "mine"]))


def refused_ask(verdicts, program):
    """Request 1 is under way, and another connection asks under 9."""
    with held_up(program) as cluster, connected(cluster, 1) as first, connected(cluster, 1) as second:
        first.sendall(store_frame(1))
        time.sleep(0.5)
        second.sendall(store_frame(9))
        line = told(second, 5)
        verdicts.add(line == f"request 9: refused {SKIP}", f"a second connection asks under 9, and gets: {line}")
        cluster.start(2)
        line = told(first, 10)
        verdicts.add(line == "request 1: Stored", f"the connection that asked under 1 gets: {line}")


def half_closed(verdicts, program):
    """A client ends its sending half behind its ask: at once answered, and answered once node 2 runs again."""
    with held_up(program) as cluster, connected(cluster, 1) as connection:
        connection.sendall(store_frame(1))
        connection.shutdown(socket.SHUT_WR)
        time.sleep(1)
        cluster.start(2)
        line = told(connection, 10)
        verdicts.add(line == "request 1: Stored", f"a client that ended its sending half gets, when it is stored: {line}")
        line = told(connection, 5)
        verdicts.add(line == CLOSED, f"and then: {line}")
        with connected(cluster, 1) as connection:
            connection.sendall(store_frame(2))
            connection.shutdown(socket.SHUT_WR)
            line = told(connection, 10)
            verdicts.add(line == "request 2: Stored", f"while node 2 runs: {line}")


def port_of_its_own(verdicts, program):
    with Cluster(program, 1, name=None) as cluster:
        cluster.ports[1] = 0
        cluster.start(1)
        port = waited_for(cluster, 1, RUNS_AT.format(node=1))
        verdicts.add(port, f"a node that listens at port 0 tells port {port}")
        if port:
            cluster.ports[1] = port
            line = ask(cluster, 1, SESSION, 5)
            verdicts.add(line == "Stored", f"asked there: {line}")


def one_connection(verdicts, program):
    """Two connections in the name of node 2, which doesn't run."""
    with Cluster(program, 2, name=None) as cluster:
        cluster.start(1)
        waited_for(cluster, 1, RUNS_AT.format(node=1))
        with connected(cluster, 1) as older:
            older.sendall(nodes.post_frame(2, 1, nodes.query(1, 2)))
            line = told(older, 1)
            verdicts.add(line == NOTHING, f"a connection of node 2, alone: {line}")
            newer = connected(cluster, 1)
            newer.sendall(nodes.post_frame(2, 2, nodes.query(2, 2)))
            line = told(older, 5)
            verdicts.add(line == CLOSED, f"once there is a newer one of node 2, the older one: {line}")
            line = told(newer, 1)
            verdicts.add(line == NOTHING, f"and the newer one: {line}")
            newer.close()


def main():
    end_on_signals()
    program, verdicts = sys.argv[1], Verdicts()
    for count in (1, 3):
        for name in MESSAGES:
            retired_at_once(verdicts, program, count, name)
            retired_late(verdicts, program, count, name)
    for shown in (refused_ask, half_closed, port_of_its_own, one_connection):
        shown(verdicts, program)
    sys.exit(not verdicts.is_good)


if __name__ == "__main__":
    main()
