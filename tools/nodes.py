"""Nodes of a cluster on loopback, in a fresh folder, clients of them, and frames that a peer sends: what the tools beside
this file share.

A Cluster ends all that it started when its `with` block is left, in whichever way.
"""
import os
import pathlib
import random
import shutil
import signal
import socket
import struct
import subprocess
import sys
import tempfile
import threading
import time

HERE = pathlib.Path(__file__).resolve().parent
sys.path.insert(0, str(HERE.parent / "examples"))
import client  # noqa: E402  (the example client has the frames)

LOOPBACK = "127.0.0.1"
PASSING = client.PASSING
TICKS_A_SECOND = os.sysconf("SC_CLK_TCK")
# An answer that takes a client so many seconds is noted.
SLOW = 1.0


def say(text):
    print(text, flush=True)


def end_on_signals():
    """SIGTERM and SIGHUP leave `with` blocks as Ctrl-C does."""
    for name in (signal.SIGTERM, signal.SIGHUP):
        signal.signal(name, lambda *_: sys.exit(130))


def free_ports(count):
    """Ports that nothing listens at now."""
    listeners = [socket.create_server((LOOPBACK, 0)) for _ in range(count)]
    ports = [listener.getsockname()[1] for listener in listeners]
    for listener in listeners:
        listener.close()
    return ports


def slow_sync(folder):
    """A library for `preloads` that makes syncs slower: by 5,000 microseconds, or as many as SLOW_SYNC says."""
    library = folder / "slow_sync.so"
    subprocess.run(["cc", "-shared", "-fPIC", "-O2", "-o", library, HERE / "slow_sync.c"], check=True)
    return str(library)


class Cluster:
    """
    Nodes 1 to `count`, formatted with that fraction beta, up to `share` of whose asks begin together, of a cluster with that
    name, if it has one. `preloads` gives a node a library of its own (LD_PRELOAD).
    """

    def __init__(self, program, count, beta="4/5", preloads=None, share=1, name="tools"):
        self.program = os.path.realpath(program)
        self.nodes = range(1, count + 1)
        self.beta, self.preloads, self.share, self.name = beta, preloads or {}, share, name
        self.ports = dict(zip(self.nodes, free_ports(count)))
        self.folder = pathlib.Path(tempfile.mkdtemp(prefix="ccnode-"))
        self.running = {}

    def __enter__(self):
        try:
            self.format_all()
        except BaseException:
            self.__exit__()
            raise
        return self

    def __exit__(self, *_):
        for node in list(self.running):
            self.kill(node)
        shutil.rmtree(self.folder, ignore_errors=True)

    def format_all(self):
        members = ",".join(map(str, self.nodes))
        for node in self.nodes:
            (self.folder / f"node-{node}").mkdir()
            words = ["format", f"node-{node}", str(node), "--initial", members, "--beta", self.beta]
            words += ["--share", str(self.share), *cluster_words(self.name)]
            subprocess.run([self.program, *words], cwd=self.folder, check=True, capture_output=True)

    def slow_down(self, pause):
        """Each sync of each node that is started from now on takes so many microseconds more. It needs a C compiler."""
        if pause:
            os.environ["SLOW_SYNC"] = str(pause)
            self.preloads = dict.fromkeys(self.ports, slow_sync(self.folder))

    def address(self, node):
        return f"{LOOPBACK}:{self.ports[node]}"

    def way(self, node, peer):
        """Where a node reaches a peer. Relays put themselves between."""
        return self.address(peer)

    def run_words(self, node):
        peers = ",".join(f"{peer}={self.way(node, peer)}" for peer in self.nodes if peer != node)
        words = ["run", f"node-{node}", "--listen", self.address(node), *speech_of(node)]
        return words + (["--peers", peers] if peers else [])

    def start(self, node, closed=(), blocks=None, output=None, error=None):
        """Starts a node, with these of its standard streams closed, and where its files may have so many blocks alone. What
        it prints goes to its log, or to these descriptors."""
        settings = {**os.environ, "LD_PRELOAD": self.preloads[node]} if node in self.preloads else None
        with open(self.folder / f"log-{node}", "ab") as log:
            self.running[node] = subprocess.Popen(
                limited([self.program, *self.run_words(node)], closed, blocks), cwd=self.folder,
                stdin=subprocess.DEVNULL, stdout=output or log, stderr=error or log, env=settings,
                start_new_session=True,
            )

    def log(self, node):
        """What a node has said since the cluster was made."""
        return (self.folder / f"log-{node}").read_text()

    def does(self, words, closed=(), stdin=subprocess.DEVNULL):
        """The status of a command of the program that ends by itself, and what it prints."""
        done = subprocess.run(
            limited([self.program, *words], closed), cwd=self.folder, stdin=stdin, capture_output=True, text=True,
            timeout=60,
        )
        return done.returncode, (done.stdout + done.stderr).strip()

    def start_all(self):
        for node in self.nodes:
            self.start(node)

    def signal(self, node, number):
        self.running[node].send_signal(number)

    def kill(self, node):
        process = self.running.pop(node)
        process.kill()
        process.wait()

    def wait_until_ready(self, seconds=20):
        """Each node has answered a collect."""
        for node in self.nodes:
            Session(self.address(node), 900_000 + node).ask(["collect"], seconds)

    def has_ended(self):
        """The nodes that ended by themselves, and what they said."""
        dead = [node for node, process in self.running.items() if process.poll() is not None]
        return {node: self.log(node).strip().splitlines()[-1:] for node in dead}

    def end_of(self, node):
        """A list that gets the moment at which a node ends, once it does."""
        moments, process = [], self.running[node]

        def wait():
            process.wait()
            moments.append(time.monotonic())

        threading.Thread(target=wait, daemon=True).start()
        return moments

    def processor_seconds(self):
        return sum(processor_seconds(process.pid) for process in self.running.values())

    def memory(self, node):
        """VmRSS and VmHWM, in kilobytes."""
        lines = pathlib.Path(f"/proc/{self.running[node].pid}/status").read_text().splitlines()
        rows = dict(line.split(":", 1) for line in lines)
        return tuple(int(rows[name].split()[0]) for name in ("VmRSS", "VmHWM"))


def speech_of(node):
    """What SPEAKS has a node run with: `now` or `0.1`, or `half`, which has the odd ones of a cluster speak as 0.1 did."""
    speech = os.environ.get("SPEAKS", "")
    if speech == "half":
        speech = "0.1" if node % 2 else "now"
    return ["--speaks", speech] if speech else []


def cluster_words(name):
    """What a folder is formatted with so that its cluster has that name, unless a node speaks as 0.1 did, which greets nobody."""
    return ["--cluster", name] if name and os.environ.get("SPEAKS", "now") == "now" else []


def limited(words, closed, blocks=None):
    """The words that run a program with these of its descriptors 0, 1 and 2 closed, as a shell closes them, and with files
    of at most so many blocks of 512 bytes: writes beyond that fail, as on a full disk."""
    closing = " ".join(f"{stream}>&-" for stream in closed)
    limit = f"trap '' XFSZ; ulimit -f {blocks}; " if blocks else ""
    return ["sh", "-c", f'{limit}exec "$0" "$@" {closing}', *words] if closed or blocks else words


def processor_seconds(pid):
    fields = pathlib.Path(f"/proc/{pid}/stat").read_text().rsplit(")", 1)[1].split()
    return (int(fields[11]) + int(fields[12])) / TICKS_A_SECOND


class NoAnswer(Exception):
    """Nothing came in time, or the request was refused for good."""


class Session:
    """A client of one node: one request at a time, each under one number, whatever breaks."""

    def __init__(self, address, number, patience=2.0):
        host, port = address.rsplit(":", 1)
        self.address, self.number = (host, int(port)), number
        # After how many seconds without an answer it connects again.
        self.patience = patience
        self.connection, self.request = None, None
        # Why it was refused last, the refusals and the connections that broke, and until when it goes on asking.
        self.refusal, self.refusals, self.breaks, self.is_over = None, 0, 0, False

    def close(self):
        if self.connection:
            self.connection.close()
        self.connection = None

    def connect(self):
        self.connection = socket.create_connection(self.address, timeout=self.patience)
        self.connection.setsockopt(socket.IPPROTO_TCP, socket.TCP_NODELAY, 1)

    def learn(self, command):
        """The number of the session's last request, which the refusal of request 0 tells."""
        _, refusal, last = client.answer_to(self.connection, self.number, 0, command)
        if refusal != client.STALE:
            raise ConnectionError(f"refused {refusal}")
        self.request = last

    def ask(self, words, seconds=10.0):
        """The answer to a command. It is asked again, under its number, where a connection breaks or a refusal passes."""
        command, end = client.command_bytes(words), time.monotonic() + seconds
        is_numbered = False
        while not self.is_over and time.monotonic() < end:
            try:
                if not self.connection:
                    self.connect()
                if self.request is None:
                    self.learn(command)
                if not is_numbered:
                    self.request, is_numbered = self.request + 1, True
                answer, self.refusal, last = client.answer_to(self.connection, self.number, self.request, command)
                if answer:
                    return answer
                self.refusals += 1
                if self.refusal not in PASSING:
                    raise NoAnswer(f"session {self.number}, request {self.request}: refused {self.refusal} {last}")
                time.sleep(0.02)
            except OSError:
                self.breaks += 1
                self.close()
                time.sleep(0.01 + random.random() * 0.04)
        raise NoAnswer(f"session {self.number}: no answer to {' '.join(words)} in {seconds} s")


def stolen():
    """For how many seconds, on the mean, a processor of this machine was kept from work by what runs it (`steal`)."""
    with open("/proc/stat", encoding="ascii") as stat:
        return int(stat.readline().split()[8]) / TICKS_A_SECOND / os.cpu_count()


class Load:
    """Clients of these nodes that store and collect by turns, and how many answers those of each node got."""

    def __init__(self, cluster, nodes, clients):
        self.answers = {node: 0 for node in nodes}
        # Of each node, by the whole seconds since the start: how many slow answers came then, and how long the slowest
        # of them took.
        self.slow = {node: {} for node in nodes}
        self.sessions, self.faults = [], []
        self.lock, self.start = threading.Lock(), time.monotonic()
        for node in nodes:
            for place in range(clients):
                session = Session(cluster.address(node), 100 * node + place, patience=15.0)
                self.sessions.append(session)
                threading.Thread(target=self.run, args=(node, session), daemon=True).start()

    def run(self, node, session):
        count = 0
        while not session.is_over:
            count += 1
            asked = time.monotonic()
            try:
                session.ask(["collect"] if count % 4 == 0 else ["store", f"w{count}"], 3600)
            except NoAnswer as why:
                if not session.is_over:
                    self.faults.append(str(why))
                return
            self.note_answer(node, asked, time.monotonic())

    def note_answer(self, node, asked, answered):
        with self.lock:
            self.answers[node] += 1
            if answered - asked >= SLOW:
                second = int(answered - self.start)
                count, slowest = self.slow[node].get(second, (0, 0.0))
                self.slow[node][second] = count + 1, max(slowest, answered - asked)

    def seconds(self):
        """How long it has been running."""
        return time.monotonic() - self.start

    def end(self):
        for session in self.sessions:
            session.is_over = True

    def total(self):
        return sum(self.answers.values())


class Verdicts:
    """What holds and what doesn't, told line by line."""

    def __init__(self):
        self.lines, self.is_good = [], True

    def add(self, is_good, text):
        self.is_good &= bool(is_good)
        self.lines.append(f"{'ok ' if is_good else 'NOT'} {text}")
        say(self.lines[-1])


# Frames that a peer sends, by docs/FORMATS.md. Those of a client are the example client's.


def framed(body):
    return struct.pack(">I", len(body)) + body


def post_frame(sender, number, message):
    return framed(b"\x01" + struct.pack(">IQ", sender, number) + message)


def ack_frame(sender, number):
    return framed(b"\x02" + struct.pack(">IQ", sender, number))


def join_echo(node):
    return b"\x04" + struct.pack(">I", node)


def query(tag, node):
    return b"\x07" + struct.pack(">QI", tag, node)
