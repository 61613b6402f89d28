"""What one connection over HTTP may do, and what it gets beyond that: the part of http_clients.py that takes each limit to its
edge.

What is wanted stands in docs/RUN.md ("Clients that speak HTTP") and docs/SECURITY.md ("The port for HTTP"), and for the bytes of
a request in RFC 9110 and RFC 9112. Where these leave a choice, the kit's pages of http_server and http1 say which one it takes.
"""
import collections
import json
import pathlib
import socket
import time
from concurrent.futures import ThreadPoolExecutor
from contextlib import ExitStack, closing

from nodes import LOOPBACK

# How long a request may take from its first byte, and an answer to be taken, and for how long a connection may say nothing.
REQUEST, ANSWER, IDLE = 10.0, 10.0, 60.0
# How much later a connection may end on a machine that is busy, in seconds.
GRACE = 3.0
# How the system writes that a connection is open, and that the other side has closed it.
ESTABLISHED, CLOSE_WAIT = "01", "08"
# How many connections are served at once; how long a head and a body may be, in bytes; how many fields a head may have.
PLACES, HEAD, BODY, FIELDS = 256, 8_192, 4_096, 64
# A client that is served, or turned away, waits no longer than so many seconds.
SOON = 2.0
# A socket that hasn't taken anything for so many seconds is full.
STILL = 2.0
# How many bytes a socket holds at most that nobody reads; those on the other side are few.
MOST_HELD = int(pathlib.Path("/proc/sys/net/ipv4/tcp_wmem").read_text().split()[2])


class Talk:
    """A bare connection: nothing is sent but what a test says. `room` is how many bytes may wait to be read."""

    def __init__(self, port, room=None):
        self.socket = socket.socket()
        if room:
            self.socket.setsockopt(socket.SOL_SOCKET, socket.SO_RCVBUF, room)
        self.socket.settimeout(10)
        self.socket.connect((LOOPBACK, port))
        self.socket.setsockopt(socket.IPPROTO_TCP, socket.TCP_NODELAY, 1)
        self.came, self.has_ended = bytearray(), False

    def close(self):
        self.socket.close()

    def send(self, data):
        """Sends bytes. Where the connection ends meanwhile, reading tells so."""
        self.socket.settimeout(10)
        try:
            self.socket.sendall(data)
        except OSError:
            pass

    def take(self, seconds, most=65_536):
        """Reads once, for so many seconds at most."""
        self.socket.settimeout(max(seconds, 0.001))
        try:
            piece = self.socket.recv(most)
        except TimeoutError:
            return
        except ConnectionError:
            piece = b""
        self.came += piece
        self.has_ended = not piece

    def take_until(self, holds, seconds):
        """Reads until that holds, or the connection ends, or so many seconds are over."""
        end = time.monotonic() + seconds
        while not self.has_ended and not holds() and time.monotonic() < end:
            self.take(end - time.monotonic())

    def take_all(self, seconds):
        self.take_until(lambda: False, seconds)


def responses_in(data):
    """The responses that these bytes are, one after the other: the status, the fields and the body of each."""
    told = []
    while b"\r\n\r\n" in data:
        head, _, data = data.partition(b"\r\n\r\n")
        first, *lines = head.decode("latin-1").split("\r\n")
        fields = dict(line.lower().split(": ", 1) for line in lines)
        length = int(fields.get("content-length", 0))
        told.append((int(first.split()[1]), fields, data[:length]))
        data = data[length:]
    return told


def asked(port, sent, seconds=5.0):
    """The responses to these bytes, and whether the connection ended behind them."""
    with closing(Talk(port)) as talk:
        talk.send(sent)
        talk.take_all(seconds)
        return responses_in(talk.came), talk.has_ended


def end_words(has_ended):
    return "and the end" if has_ended else "but no end"


def get(path, *fields):
    return b"\r\n".join((b"GET " + path + b" HTTP/1.1", b"Host: a", *fields, b"", b""))


def put(*fields, body=b"", path=b"/v1/text"):
    return b"\r\n".join((b"PUT " + path + b" HTTP/1.1", b"Host: a", *fields, b"", body))


def written(port):
    """How often node 1 has written."""
    [(_, _, body)], _ = asked(port, get(b"/v1/view", b"Connection: close"))
    return next((int(row["number"]) for row in json.loads(body)["rows"] if row["node"] == 1), 0)


# ---- one request


def sized_head(size):
    """A write whose head has so many bytes."""
    empty = len(put(b"Content-Length: 1", b"Filler: "))
    return put(b"Content-Length: 1", b"Filler: " + b"a" * (size - empty), body=b"1")


def fields_of(count):
    """A write whose head has so many fields."""
    return put(b"Content-Length: 1", *(b"Filler: a" for _ in range(count - 2)), body=b"1")


def text_of(length, *fields):
    return put(b"Content-Length: %d" % length, *fields, body=b"a" * length)


LENGTH, CHUNKED, EXPECTS = b"Content-Length: 1", b"Transfer-Encoding: chunked", b"Expect: 100-continue"
LONG_CHUNKS = (b"800\r\n" + b"a" * 2_048 + b"\r\n") * 2 + b"1\r\na\r\n0\r\n\r\n"

# What is refused. Each that has a short body would be a write if it were taken.
REFUSED = (
    (431, "a head of 8,193 bytes", sized_head(HEAD + 1)),
    (431, "65 fields", fields_of(FIELDS + 1)),
    (414, "a first line beyond 8,192 bytes", put(LENGTH, body=b"1", path=b"http://" + b"a" * HEAD + b"/v1/text")),
    (413, "a body of 4,097 bytes", text_of(BODY + 1)),
    (413, "a body of 20,000 bytes", text_of(20_000)),
    (413, "chunks of 4,097 bytes together", put(CHUNKED, body=LONG_CHUNKS)),
    (413, "a body of 4,097 bytes behind Expect", text_of(BODY + 1, EXPECTS)),
    (400, "two lengths that differ", put(LENGTH, b"Content-Length: 2", body=b"12")),
    (400, "lengths that differ in one field", put(b"Content-Length: 1, 2", body=b"12")),
    (400, "a length with a sign", put(b"Content-Length: +1", body=b"1")),
    (400, "a length and chunks", put(LENGTH, CHUNKED, body=b"1\r\n1\r\n0\r\n\r\n")),
    (400, "chunks and a length", put(CHUNKED, LENGTH, body=b"1\r\n1\r\n0\r\n\r\n")),
    (501, "a coding other than chunks", put(b"Transfer-Encoding: gzip, chunked", body=b"1\r\n1\r\n0\r\n\r\n")),
    (400, "chunks that aren't the last coding", put(b"Transfer-Encoding: chunked, gzip", body=b"1\r\n1\r\n0\r\n\r\n")),
    (400, "chunks of HTTP/1.0", put(CHUNKED, body=b"1\r\n1\r\n0\r\n\r\n").replace(b"/1.1", b"/1.0")),
    (400, "a chunk whose size is no number", put(CHUNKED, body=b"x\r\n1\r\n0\r\n\r\n")),
    (400, "a chunk that is longer than its size", put(CHUNKED, body=b"1\r\n12\r\n0\r\n\r\n")),
    (400, "a line feed alone behind the first line", put(LENGTH, body=b"1").replace(b"\r\n", b"\n", 1)),
    (400, "a line feed alone behind a field", put(b"Accept: a\nContent-Length: 1", body=b"1")),
    (400, "a field that goes on in a second line", put(b"Accept: a,\r\n b", LENGTH, body=b"1")),
    (400, "a blank before the colon", put(b"Content-Length : 1", body=b"1")),
    (400, "a zero byte in a field", put(b"Accept: a\0b", LENGTH, body=b"1")),
    (400, "no Host", put(LENGTH, body=b"1").replace(b"Host: a\r\n", b"")),
    (400, "two Hosts", put(b"Host: a", LENGTH, body=b"1")),
    (400, "a Host that is none", put(LENGTH, body=b"1").replace(b"Host: a", b"Host: a b")),
    (400, "the beginning of TLS", bytes.fromhex("16030100c8010000c40303") + bytes(200)),
)

# What is served, with its statuses, and how many writes it is.
SERVED = (
    ((200,), 1, "a head of 8,192 bytes", sized_head(HEAD)),
    ((200,), 1, "64 fields", fields_of(FIELDS)),
    ((413,), 0, "a body of 4,096 bytes, which is no text", text_of(BODY)),
    ((200,), 1, "a body in chunks", put(CHUNKED, body=b"1\r\n1\r\n0\r\n\r\n")),
    ((200,), 1, "chunks with an extension and a trailer", put(CHUNKED, body=b"1;a=b\r\n1\r\n0\r\nAfter: a\r\n\r\n")),
    ((200,), 1, "two lengths that are the same", put(LENGTH, LENGTH, body=b"1")),
    ((200,), 1, "an empty line before the request", b"\r\n" + put(LENGTH, body=b"1")),
    ((200,), 1, "a path of an absolute form", put(LENGTH, body=b"1", path=b"http://a/v1/text")),
    ((200,), 1, "names of fields in capital letters", put(b"CONTENT-LENGTH: 1", body=b"1")),
    ((200, 200), 2, "two requests at once", put(LENGTH, body=b"1") * 2),
    ((100, 200), 1, "a body that comes with its Expect", put(LENGTH, EXPECTS, body=b"1")),
)

# What is the last request of a connection.
LAST = (
    ("Connection: close", put(LENGTH, b"Connection: close", body=b"1")),
    ("HTTP/1.0 without a Host", put(LENGTH, body=b"1").replace(b"/1.1\r\nHost: a", b"/1.0")),
)

# What stands behind each request: it is answered just where the connection goes on.
PROBE, PROBED = get(b"/v1/nowhere", b"Connection: close"), 404


def tried(port, sent):
    """The responses to a request and to the one behind it, their statuses, the writes, and whether the connection ended."""
    before = written(port)
    told, has_ended = asked(port, sent + PROBE)
    return told, [it[0] for it in told], written(port) - before, has_ended


def refuse_all(verdicts, port):
    """What is refused gets its status without a body, ends the connection, and is no write."""
    for status, name, sent in REFUSED:
        told, statuses, writes, has_ended = tried(port, sent)
        is_bare = all(fields.get("connection") == "close" and not body for _, fields, body in told)
        verdicts.add(statuses == [status] and is_bare and has_ended and not writes,
                     f"{name}: {statuses} of [{status}]{'' if is_bare else ', with a body or without close'}, "
                     f"{writes} writes, {end_words(has_ended)}")


def serve_all(verdicts, port):
    """What is served gets its statuses. The connection goes on, or ends behind the last request of a client."""
    for wanted, most, name, sent in SERVED:
        _, statuses, writes, _ = tried(port, sent)
        verdicts.add(statuses == [*wanted, PROBED] and writes == most,
                     f"{name}: {statuses} of {[*wanted, PROBED]}, {writes} writes of {most}")
    for name, sent in LAST:
        _, statuses, writes, has_ended = tried(port, sent)
        verdicts.add(statuses == [200] and writes == 1 and has_ended,
                     f"{name}: {statuses} of [200], {writes} writes of 1, {end_words(has_ended)}")


def expect(verdicts, port):
    """A client that waits for 100 before it sends its body gets it, and then its answer."""
    with closing(Talk(port)) as talk:
        talk.send(put(LENGTH, EXPECTS))
        talk.take_until(lambda: responses_in(talk.came), 5)
        talk.take(0.3)
        before = [it[0] for it in responses_in(talk.came)]
        talk.send(b"1" + PROBE)
        talk.take_all(5)
        after = [it[0] for it in responses_in(talk.came)]
    verdicts.add(before == [100] and after == [100, 200, PROBED], f"Expect: {before} before the body, {after} in all")


# ---- time

Drip = collections.namedtuple("Drip", "name first rest answered")

# What comes at once, and what comes byte by byte, a byte each second; and the statuses of what was answered before.
WRITE = put(b"Content-Length: 40", body=b"1" * 40)
DRIPS = (
    Drip("a head that drips", b"", WRITE, []),
    Drip("a body that drips", WRITE[:-40], b"1" * 40, []),
    Drip("chunks that drip", put(CHUNKED), b"1\r\n1\r\n" * 5, []),
    Drip("a head that stops", b"PUT /v1/text", b"", []),
    Drip("a body that stops", WRITE[:-1], b"", []),
    Drip("a head that drips behind an answer", get(b"/v1/nowhere"), WRITE, [404]),
)


def drip(port, one):
    """When a connection ends that drips, in seconds from the first byte of that request; and what came."""
    with closing(Talk(port)) as talk:
        start = time.monotonic()
        talk.send(one.first)
        if one.answered:
            talk.take_until(lambda: responses_in(talk.came), 5)
            start = time.monotonic()
        for byte in one.rest:
            if talk.has_ended or time.monotonic() > start + REQUEST + GRACE:
                break
            talk.send(bytes([byte]))
            talk.take(1)
        talk.take_all(start + REQUEST + GRACE - time.monotonic())
        return time.monotonic() - start, talk


def judge_drip(verdicts, one, took, talk):
    statuses = [it[0] for it in responses_in(talk.came)]
    is_good = talk.has_ended and REQUEST <= took <= REQUEST + GRACE and statuses == one.answered
    verdicts.add(is_good, f"{one.name}: {'ended' if talk.has_ended else 'still open'} after {took:.1f} s, {statuses} came")


def drip_in_time(port):
    """The statuses for a request of which the last bytes drip for seven seconds."""
    with closing(Talk(port)) as talk:
        request = put(LENGTH, body=b"1")
        talk.send(request[:-7])
        for byte in request[-7:]:
            talk.take(1)
            talk.send(bytes([byte]))
        talk.take_until(lambda: responses_in(talk.came), 5)
        return [it[0] for it in responses_in(talk.came)]


def idle(port, sent):
    """When a connection ends that says nothing behind these bytes, in seconds; and the statuses that came."""
    with closing(Talk(port)) as talk:
        start = time.monotonic()
        talk.send(sent)
        talk.take_all(IDLE + GRACE)
        return time.monotonic() - start if talk.has_ended else None, [it[0] for it in responses_in(talk.came)]


class Idle:
    """Connections that say nothing, while other tests go on."""

    # Which ones, what they send, which statuses come, and after how long the node ends them at the earliest.
    ASKED = (
        ("one that said nothing", b"", [], IDLE),
        ("one that was answered", get(b"/v1/nowhere"), [404], IDLE),
        ("one that stops behind an answer, within a line", get(b"/v1/nowhere") + b"PUT /v1/te", [404], 0),
        ("one whose body doesn't come, behind 100", put(LENGTH, EXPECTS), [100], 0),
    )

    def __init__(self, port):
        self.pool = ThreadPoolExecutor()
        self.told = [self.pool.submit(idle, port, sent) for _, sent, _, _ in self.ASKED]

    def judge(self, verdicts):
        for (name, _, wanted, earliest), told in zip(self.ASKED, self.told):
            took, statuses = told.result()
            verdicts.add(took and earliest <= took <= IDLE + GRACE and statuses == wanted,
                         f"an idle connection, {name}: {f'ended after {took:.1f} s' if took else 'still open'}, {statuses} came")
        self.pool.shutdown()


# ---- places and answers


def is_served(talk, seconds=5.0):
    """Whether a request is answered whose connection goes on."""
    before = len(responses_in(talk.came))
    talk.send(get(b"/v1/flag"))
    talk.take_until(lambda: len(responses_in(talk.came)) > before, seconds)
    return [it[0] for it in responses_in(talk.came)][before:] == [200]


def served_within(port, seconds):
    """After how many seconds a new connection is served, if one is in time."""
    start = time.monotonic()
    while time.monotonic() < start + seconds:
        with closing(Talk(port)) as talk:
            if is_served(talk, SOON):
                return time.monotonic() - start
    return None


def wait_until_left(port):
    """Waits until no connection of an earlier test holds a place, for as long as one may say nothing."""
    end = time.monotonic() + IDLE + REQUEST
    mine = f":{port:04X}"
    while time.monotonic() < end:
        lines = pathlib.Path("/proc/net/tcp").read_text().splitlines()
        if not any(words[1].endswith(mine) and words[3] in (ESTABLISHED, CLOSE_WAIT) for words in map(str.split, lines)):
            return
        time.sleep(0.1)


def take_places(verdicts, port):
    """So many connections are served, one more is closed without a word, and who leaves makes room."""
    wait_until_left(port)
    with ExitStack() as stack:
        talks = [stack.enter_context(closing(Talk(port))) for _ in range(PLACES)]
        served = sum(map(is_served, talks))
        verdicts.add(served == PLACES, f"{served} of {PLACES} connections are served")
        for _ in range(3):
            told, has_ended = asked(port, get(b"/v1/flag"), SOON)
            verdicts.add(not told and has_ended, f"one more: {[it[0] for it in told]}, {end_words(has_ended)}")
        served = sum(map(is_served, talks))
        verdicts.add(served == PLACES, f"{served} of {PLACES} are served again")
        talks[100].close()
        took = served_within(port, SOON)
        verdicts.add(took is not None, f"once one of them is closed a new one is served: {f'{took:.2f} s' if took else 'not'}")


def held(port, talk):
    """How many bytes wait in the node's socket for the other side of a connection. None where the node has ended it."""
    sides = [f"0100007F:{number:04X}" for number in (port, talk.socket.getsockname()[1])]
    for line in pathlib.Path("/proc/net/tcp").read_text().splitlines():
        words = line.split()
        if words[1:4] == [*sides, ESTABLISHED]:
            return int(words[4].partition(":")[0], 16)
    return None


def full_since(port, talk):
    """The moment since which the node's socket has taken nothing more."""
    since, last = time.monotonic(), None
    while time.monotonic() < since + STILL:
        if (now := held(port, talk)) != last:
            since, last = time.monotonic(), now
        time.sleep(0.1)
    return since


def read_late(port, wait, pace):
    """A client asks for more pages than two sockets hold, and reads so many bytes each quarter of a second, until the node's
    socket was full for so long, and then all. Whether the node had ended the connection, and which share of the pages came."""
    asking, _ = asked(port, get(b"/v1/", b"Accept: text/html", b"Connection: close"))
    with closing(Talk(port, 65_536)) as talk:
        request = get(b"/v1/", b"Accept: text/html")
        count = 2 * MOST_HELD // len(asking[0][2])
        talk.send(request * count + PROBE)
        start = full_since(port, talk)
        while time.monotonic() < start + wait:
            time.sleep(0.25)
            if pace:
                talk.take(0.001, pace)
        has_ended = held(port, talk) is None
        talk.take_all(60)
        return has_ended, talk.came.count(b"HTTP/1.1 200 ") / count


def ask_meanwhile(port, seconds):
    """The longest that another client waits for its answer, and how many answers it got of how many."""
    end, longest, answered, count = time.monotonic() + seconds, 0.0, 0, 0
    while time.monotonic() < end:
        with closing(Talk(port)) as talk:
            start = time.monotonic()
            answered, count = answered + is_served(talk), count + 1
            longest = max(longest, time.monotonic() - start)
        time.sleep(0.2)
    return longest, answered, count


# For how long a client doesn't read, and how many bytes it takes each quarter of a second meanwhile.
LATE_READERS = ((ANSWER - GRACE, 0), (ANSWER + GRACE, 0), (ANSWER + GRACE, 256))


def take_time(verdicts, port):
    """Requests that drip, answers that nobody takes, and another client that is served all the while."""
    with ThreadPoolExecutor(max_workers=16) as pool:
        drips = [pool.submit(drip, port, one) for one in DRIPS]
        late = [pool.submit(read_late, port, *one) for one in LATE_READERS]
        in_time = pool.submit(drip_in_time, port)
        longest, answered, count = ask_meanwhile(port, ANSWER - 1)
        verdicts.add(answered == count and longest < SOON,
                     f"meanwhile another client got {answered} answers of {count}, within {longest:.2f} s")
        for one, told in zip(DRIPS, drips):
            judge_drip(verdicts, one, *told.result())
        verdicts.add(in_time.result() == [200], f"a request that takes seven seconds: {in_time.result()}")
        for (wait, pace), told in zip(LATE_READERS, late):
            has_ended, share = told.result()
            verdicts.add(has_ended == (wait > ANSWER) and (share == 1) == (wait < ANSWER),
                         f"a client that takes {pace} bytes each quarter of a second, {wait:.0f} s after the sockets are full: "
                         f"the connection is {'ended' if has_ended else 'open'}, and {100 * share:.0f} percent of the pages come")


def take_limits(verdicts, port):
    refuse_all(verdicts, port)
    serve_all(verdicts, port)
    expect(verdicts, port)
    take_places(verdicts, port)
    take_time(verdicts, port)
