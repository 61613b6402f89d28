#!/usr/bin/env python3
"""Runs two nodes on loopback, has clients misuse one of them in turn, and asks it after each whether it still serves.

usage: hostile.py PROGRAM

They open more connections than it takes and say nothing, send 10,000 asks in one write and read all that comes back,
send asks and never read, and send zeros without end. It takes a minute at most, fails where the node doesn't answer
afterwards, and ends all that it started.
"""
import resource
import select
import socket
import sys
import time

import nodes
from nodes import client, say

CONNECTIONS = 1_100
# How many connections a node takes. Here all come from the machine of its peer.
LIMIT = 1_024
# Beside them eight are open for so many seconds, which are kept for the operator.
SPARE = 5
ASKS = 10_000
# A client that never reads is closed once so many bytes wait for it, beside what the system's buffers hold.
NEVER_READ = 400_000


class Failure(Exception):
    """The node doesn't serve any more."""


def connected(address):
    connection = socket.create_connection(address, timeout=10)
    connection.setsockopt(socket.IPPROTO_TCP, socket.TCP_NODELAY, 1)
    return connection


def idle_connections(address):
    """Opens connections that say nothing. The node closes those above its limit."""
    idle = [connected(address) for _ in range(CONNECTIONS)]
    time.sleep(SPARE + 2)
    poll = select.poll()
    for connection in idle:
        poll.register(connection, select.POLLIN)
    closed = len(poll.poll(0))
    for connection in idle:
        connection.close()
    if CONNECTIONS - closed > LIMIT:
        raise Failure(f"{closed} of {CONNECTIONS} were closed")
    return f"{CONNECTIONS} opened, {closed} closed by the node"


def asks(session, command):
    return b"".join(client.ask_frame(session, request, command) for request in range(1, ASKS + 1))


def flood(address):
    """Sends asks in one write, and reads an answer to each: a reply, or why it is refused."""
    replies = refused = 0
    with connected(address) as connection:
        connection.settimeout(30)
        connection.sendall(asks(1_001, client.command_bytes(["max", "1"])))
        for _ in range(ASKS):
            if client.read_frame(connection)[0] == 4:
                replies += 1
            else:
                refused += 1
    return f"{ASKS} asks in one write: {replies} replies, {refused} refused"


def never_reads(address):
    """Sends asks until the node closes the connection, and reads nothing."""
    frame = client.ask_frame(1_002, 3, client.command_bytes(["collect"]))
    sent = 0
    with connected(address) as connection:
        connection.settimeout(20)
        try:
            while sent < NEVER_READ:
                connection.sendall(frame * 100)
                sent += 100
        except OSError:
            return f"closed after {sent} asks whose answers nobody reads"
    return f"{sent} asks whose answers nobody reads"


def zeros(address):
    """Sends zeros until the node closes the connection, which it does at the first length of 0."""
    with connected(address) as connection:
        try:
            for _ in range(1_000):
                connection.sendall(bytes(65_536))
        except OSError:
            return "zeros: closed"
    raise Failure("zeros without end are read")


def check(cluster):
    """A client of its own stores, and collects what it stored, within ten seconds."""
    session = nodes.Session(cluster.address(1), 7)
    session.ask(["store", "a"])
    seen = session.ask(["collect"])
    session.close()
    if "=a/" not in seen:
        raise Failure(f"collected {seen}")
    ended = cluster.has_ended()
    if ended:
        raise Failure(f"ended: {ended}")


def main(program):
    files = resource.getrlimit(resource.RLIMIT_NOFILE)[1]
    resource.setrlimit(resource.RLIMIT_NOFILE, (min(4096, files), files))
    with nodes.Cluster(program, 2) as cluster:
        cluster.start_all()
        cluster.wait_until_ready()
        host, port = cluster.address(1).rsplit(":", 1)
        for misuse in (idle_connections, flood, never_reads, zeros):
            say(misuse((host, int(port))))
            time.sleep(1)
            check(cluster)
        memory, most = cluster.memory(1)
        say(f"it answers after each; {memory} kB of memory at the end, {most} at most")


if __name__ == "__main__":
    if len(sys.argv) != 2:
        sys.exit(__doc__)
    nodes.end_on_signals()
    try:
        main(sys.argv[1])
    except (Failure, nodes.NoAnswer, OSError) as why:
        sys.exit(f"the node doesn't serve: {why}")
