#!/usr/bin/env python3
"""Takes all places of a node's page by watchers and slow readers, and checks that one is free again in time. Then runs
three nodes with status pages under load, misuses the page of one of them in turn, and checks after each misuse that it
answers; then compares the answers a second with and without. It fails where a request isn't answered as it should be, or
the answers fall by 5 percent or more.

usage: hostile_status.py PROGRAM              all of that: two and a half minutes
       hostile_status.py HOST:PORT SECONDS    misuses a page that runs already, and tells what came of it

Loopback alone. The places are tried in a network namespace: that wants unshare, and root or namespaces of users. It
looks at /metrics by promtool where that is installed, and ends all that it started.
"""
import http.client
import json
import random
import resource
import select
import shutil
import socket
import subprocess
import sys
import time

import nodes
from look import WatchedCluster, store_values
from nodes import LOOPBACK, say

PAGES = {
    "/": "text/html", "/status.json": "application/json", "/view": "application/json", "/metrics": "text/plain",
    "/healthz": "text/plain", "/readyz": "text/plain",
}
# A connection has five seconds for its request, and some to be noticed.
LIMIT, GRACE = 5.0, 3.0
CROWD, CLIENTS = 1_000, 4
# Half of the places are for watchers. An answer has ten seconds, and what comes behind a request is taken for one more.
HALF, ANSWER, DRAIN = 8, 10.0, 1.0
# How many bytes a slow reader takes each second.
PACE = 1_000
# Stores are counted by turns without and with misuse, so many times for so many seconds.
PAIRS, SECONDS = 5, 8
MOST_FALL = 0.05


class Failure(Exception):
    """A page isn't answered as it should be."""


def connected(address, timeout=10.0):
    connection = socket.create_connection(address, timeout=timeout)
    connection.setsockopt(socket.IPPROTO_TCP, socket.TCP_NODELAY, 1)
    return connection


def rest_of(connection, seconds=LIMIT + GRACE):
    """All that comes until the other side closes the connection; a failure where it doesn't."""
    connection.settimeout(seconds)
    came, end = b"", time.monotonic() + seconds
    try:
        while piece := connection.recv(65_536):
            came += piece
            if time.monotonic() > end:
                raise Failure(f"a connection isn't closed within {seconds:.0f} s")
    except ConnectionError:
        pass
    except TimeoutError:
        raise Failure(f"a connection isn't closed within {seconds:.0f} s") from None
    return came


def asked(address, sent):
    """What is answered to these bytes. A node may close before all of them are taken."""
    with connected(address) as connection:
        try:
            connection.sendall(sent)
        except ConnectionError:
            pass
        return rest_of(connection)


def status_of(answer):
    """The status of an answer, or 0 where the connection was closed without one."""
    return int(answer[9:12]) if answer.startswith(b"HTTP/1.1 ") else 0


# ---- what is right


def fetch(address, path, method="GET"):
    connection = http.client.HTTPConnection(*address, timeout=10)
    try:
        connection.request(method, path)
        answer = connection.getresponse()
        return answer.status, answer.headers, answer.read()
    finally:
        connection.close()


def check_page(address, path, form):
    """A page is given to GET, and its head to HEAD; both end the connection."""
    status, headers, body = fetch(address, path)
    if status != 200 or not headers["Content-Type"].startswith(form) or headers["Connection"] != "close":
        raise Failure(f"GET {path}: {status} {headers['Content-Type']}")
    if int(headers["Content-Length"]) != len(body):
        raise Failure(f"GET {path}: {len(body)} bytes of {headers['Content-Length']}")
    status, _, nothing = fetch(address, path, "HEAD")
    if status != 200 or nothing:
        raise Failure(f"HEAD {path}: {status}, {len(nothing)} bytes")
    return body


def check_metrics(text):
    if shutil.which("promtool"):
        done = subprocess.run(["promtool", "check", "metrics"], input=text, capture_output=True, timeout=20)
        if done.returncode:
            raise Failure(f"promtool: {(done.stdout + done.stderr).decode().strip()}")


def check_pages(address):
    bodies = {path: check_page(address, path, form) for path, form in PAGES.items()}
    told = json.loads(bodies["/status.json"])
    if not isinstance(json.loads(bodies["/view"]), list) or not isinstance(told["view"], list):
        raise Failure("/view is no list")
    check_metrics(bodies["/metrics"])


def check_changes(address):
    """The stream of changes begins with the rows as they stand, and goes on."""
    with connected(address) as connection:
        connection.sendall(b"GET /view/changes HTTP/1.1\r\nHost: node\r\n\r\n")
        came, end = b"", time.monotonic() + LIMIT
        while b"\nevent: row\ndata: " not in came and time.monotonic() < end:
            if not (piece := connection.recv(65_536)):
                break
            came += piece
    if status_of(came) != 200 or b"Content-Type: text/event-stream\r\n" not in came or b"\nevent: row\ndata: " not in came:
        raise Failure(f"/view/changes begins with {came[:80]}")
    json.loads(came.split(b"data: ", 1)[1].split(b"\n", 1)[0])


def check_all(address):
    """Every request that is well formed is answered. A page takes few connections at once, so those of a misuse that has
    just ended may be in the way for as long as one may last."""
    end = time.monotonic() + LIMIT + GRACE
    while True:
        try:
            check_pages(address)
            return check_changes(address)
        except (Failure, OSError, http.client.HTTPException):
            if time.monotonic() > end:
                raise
            time.sleep(0.25)


# ---- misuses


def half_heads(address):
    """Heads that stop in the middle: each is closed."""
    halves = [b"", b"G", b"GET /status.json HTTP/1.1", b"GET / HTTP/1.1\r\nHost: node\r\n", b"GET / HTTP/1.1\r\nA: b\r\n\r"]
    waiting = []
    for place in range(40):
        connection = connected(address)
        connection.sendall(halves[place % len(halves)])
        waiting.append(connection)
    began = time.monotonic()
    for connection in waiting:
        rest_of(connection, LIMIT + GRACE)
        connection.close()
    return f"{len(waiting)} half heads: all closed within {time.monotonic() - began:.1f} s"


def endless_heads(address):
    """Heads without end: each is refused, or closed."""
    statuses = set()
    for line in (b"A: b\r\n", b"a"):
        begin = b"GET / HTTP/1.1\r\n" + (b"" if line != b"a" else b"A: ")
        statuses.add(status_of(asked(address, begin + line * (100_000 // len(line)))))
    if not statuses <= {0, 431}:
        raise Failure(f"an endless head is answered with {statuses}")
    return f"endless heads: {sorted(statuses)}"


def crowd(address):
    """A thousand connections at once, each with a request: each is answered or closed."""
    poll, waiting, answers = select.poll(), {}, {}
    for _ in range(CROWD):
        try:
            connection = connected(address, 2.0)
            connection.sendall(b"GET /healthz HTTP/1.1\r\nHost: node\r\n\r\n")
        except OSError:
            answers[0] = answers.get(0, 0) + 1
            continue
        waiting[connection.fileno()] = connection
        poll.register(connection, select.POLLIN)
    end = time.monotonic() + 2 * (LIMIT + GRACE)
    while waiting and time.monotonic() < end:
        for descriptor, _ in poll.poll(200):
            connection = waiting.pop(descriptor)
            poll.unregister(descriptor)
            try:
                status = status_of(connection.recv(4_096))
            except OSError:
                status = 0
            answers[status] = answers.get(status, 0) + 1
            connection.close()
    left = len(waiting)
    for connection in waiting.values():
        connection.close()
    if left:
        raise Failure(f"{left} of {CROWD} connections are neither answered nor closed")
    if not answers.get(200):
        raise Failure(f"none of {CROWD} connections is answered: {answers}")
    told = ", ".join(f"{count} {status or 'closed'}" for status, count in sorted(answers.items()))
    return f"{CROWD} connections at once: {told}"


def pipelining(address):
    """A hundred requests in one write: the first is answered, and the connection closed."""
    answer = asked(address, b"GET /healthz HTTP/1.1\r\nHost: node\r\n\r\n" * 100)
    if answer.count(b"HTTP/1.1 ") > 1 or status_of(answer) not in (0, 200):
        raise Failure(f"{answer.count(b'HTTP/1.1 ')} answers to requests in one write")
    return f"100 requests in one write: {answer.count(b'HTTP/1.1 ')} answered"


def bodies(address):
    """Requests with a body, or for what there isn't."""
    cases = [
        (405, b"POST / HTTP/1.1\r\nContent-Length: 3\r\n\r\nabc"), (405, b"DELETE / HTTP/1.1\r\n\r\n"),
        (400, b"GET / HTTP/1.1\r\nContent-Length: 3\r\n\r\nabc"),
        (400, b"GET / HTTP/1.1\r\nTransfer-Encoding: chunked\r\n\r\n0\r\n\r\n"),
        (404, b"GET /none HTTP/1.1\r\n\r\n"), (505, b"GET / HTTP/2.0\r\n\r\n"), (400, b"\x16\x03\x01\x02\x00\x01"),
    ]
    for wanted, sent in cases:
        if (status := status_of(asked(address, sent))) != wanted:
            raise Failure(f"{sent[:40]} is answered with {status}, not {wanted}")
    return f"{len(cases)} requests with bodies, or for what there isn't: refused"


def garbage(address):
    """Bytes at random: refused, closed, or not waited for longer than a head is."""
    chance, statuses = random.Random(7), set()
    for size in [1, 7, 64, 900, 9_000, 90_000] * 3:
        statuses.add(status_of(asked(address, chance.randbytes(size) + b"\r\n\r\n")))
    if 200 in statuses:
        raise Failure("bytes at random are served")
    return f"18 times bytes at random: {sorted(statuses)}"


def slow_readers(address):
    """Streams of changes that nobody reads."""
    waiting = [connected(address) for _ in range(12)]
    for connection in waiting:
        connection.setsockopt(socket.SOL_SOCKET, socket.SO_RCVBUF, 4_096)
        try:
            connection.sendall(b"GET /view/changes HTTP/1.1\r\nHost: node\r\n\r\n")
        except ConnectionError:
            pass
    time.sleep(3)
    for connection in waiting:
        connection.close()
    return f"{len(waiting)} streams of changes that nobody reads"


MISUSES = [half_heads, endless_heads, crowd, pipelining, bodies, garbage, slow_readers]


def misuse(address, seconds):
    """Each misuse in turn, until the time is over."""
    end = time.monotonic() + seconds
    while time.monotonic() < end:
        for one in MISUSES:
            if time.monotonic() < end:
                say(one(address))


# ---- all places taken


def slow_reader(address, path):
    """A reader to whom little of an answer is on the way: its segments and its window are small."""
    connection = socket.socket()
    connection.setsockopt(socket.IPPROTO_TCP, socket.TCP_MAXSEG, 536)
    connection.setsockopt(socket.SOL_SOCKET, socket.SO_RCVBUF, 4_096)
    connection.connect(address)
    connection.sendall(f"GET {path} HTTP/1.1\r\n\r\n".encode())
    connection.setblocking(False)
    return connection


def take(reader):
    """A slow reader takes some bytes, if any came."""
    try:
        reader.recv(PACE)
    except OSError:
        pass


def is_served(address):
    try:
        return status_of(asked(address, b"GET /healthz HTTP/1.1\r\n\r\n")) == 200
    except (Failure, OSError):
        return False


def hold_places(address):
    """Watchers that read nothing, and readers that take some bytes each second, in all places. After how many seconds one of
    these is free again."""
    holders = [slow_reader(address, path) for path in ["/view/changes"] * HALF + ["/"] * HALF]
    began = time.monotonic()
    try:
        time.sleep(1)
        if is_served(address):
            raise Failure("the places aren't taken")
        while time.monotonic() < began + 5 * ANSWER:
            for reader in holders[HALF:]:
                take(reader)
            time.sleep(1)
            if is_served(address):
                return time.monotonic() - began
        raise Failure(f"none is free after {5 * ANSWER:.0f} s")
    finally:
        for holder in holders:
            holder.close()


def take_all_places(program):
    """Whether a node whose places are all taken answers in time. It is run where the system keeps little of what is sent."""
    verdicts = nodes.Verdicts()
    with WatchedCluster(program, 1) as cluster:
        cluster.start_all()
        cluster.wait_until_ready()
        try:
            seconds = hold_places(cluster.page_address(1))
            told = f"{HALF} watchers and {HALF} slow readers in all places: one is free after {seconds:.1f} s"
            verdicts.add(seconds < ANSWER + DRAIN + GRACE, told)
        except (Failure, OSError) as why:
            verdicts.add(False, f"all places taken: {why}")
    return verdicts.is_good


def takes_places_apart(program):
    """The same in a network of its own, in which the system keeps 4 KiB of what a connection sends: elsewhere it takes a
    whole page from the node, and nobody holds a place."""
    begin = 'ip link set lo up && echo "4096 4096 4096" >/proc/sys/net/ipv4/tcp_wmem && exec "$0" "$@"'
    words = ["unshare", "--map-root-user", "--net", "sh", "-c", begin, sys.executable, __file__, program, "places"]
    return subprocess.run(words, check=False).returncode == 0


# ---- a cluster under load


def misuse_in_turn(cluster, verdicts):
    address = cluster.page_address(1)
    check_all(address)
    for one in MISUSES:
        try:
            told = one(address)
            check_all(address)
            verdicts.add(True, told)
        except (Failure, OSError, ValueError, http.client.HTTPException) as why:
            verdicts.add(False, f"{one.__name__}: {why}")


def count_answers(load, seconds):
    before, began = load.total(), time.monotonic()
    time.sleep(seconds)
    return (load.total() - before) / (time.monotonic() - began)


def count_beside(load, address):
    """The same while another process misuses the page."""
    words = [sys.executable, __file__, ":".join(map(str, address)), str(SECONDS + 2)]
    misusing = subprocess.Popen(words, stdout=subprocess.DEVNULL, stderr=subprocess.DEVNULL)
    try:
        time.sleep(1)
        return count_answers(load, SECONDS)
    finally:
        misusing.kill()
        misusing.wait()
        time.sleep(1)


def compare(cluster, load, verdicts):
    alone, beside = 0.0, 0.0
    for _ in range(PAIRS):
        alone += count_answers(load, SECONDS) / PAIRS
        beside += count_beside(load, cluster.page_address(1)) / PAIRS
    fall = 1 - beside / alone
    verdicts.add(fall < MOST_FALL, f"{alone:.0f} answers a second without, {beside:.0f} with misuse: {100 * fall:.1f} % fewer")


def raise_limit():
    most = resource.getrlimit(resource.RLIMIT_NOFILE)[1]
    resource.setrlimit(resource.RLIMIT_NOFILE, (min(4_096, most), most))


def main(program):
    verdicts = nodes.Verdicts()
    verdicts.add(takes_places_apart(program), "a node whose places are all taken answers in time")
    with WatchedCluster(program, 3, beta="2/3") as cluster:
        cluster.start_all()
        cluster.wait_until_ready()
        store_values(cluster)
        load = nodes.Load(cluster, list(cluster.nodes), CLIENTS)
        misuse_in_turn(cluster, verdicts)
        compare(cluster, load, verdicts)
        check_all(cluster.page_address(1))
        load.end()
        verdicts.add(not load.faults, f"no client was refused: {load.faults[:3]}")
        verdicts.add(not cluster.has_ended(), f"no node ended: {cluster.has_ended()}")
        memory, most = cluster.memory(1)
        say(f"{memory} kB of memory at the end, {most} at most")
    sys.exit(not verdicts.is_good)


if __name__ == "__main__":
    nodes.end_on_signals()
    raise_limit()
    if sys.argv[2:] == ["places"]:
        sys.exit(not take_all_places(sys.argv[1]))
    if len(sys.argv) == 3:
        host, port = sys.argv[1].rsplit(":", 1)
        misuse((host, int(port)), float(sys.argv[2]))
    elif len(sys.argv) == 2:
        main(sys.argv[1])
    else:
        sys.exit(__doc__)
