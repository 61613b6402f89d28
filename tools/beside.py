#!/usr/bin/env python3
"""Measures three nodes on loopback, of share 1 and of share 32, and beside them three of etcd and three of ZooKeeper, on
one disk in one run, under 1, 8, 64 and 192 clients. It fails nothing.

    beside.py crates/ccnode/out/ccnode [SECONDS]

It needs Debian's etcd-server and zookeeper; one that isn't installed is left out. All run from the begin to the end, and
take turns: of each number of clients and each kind there are three rounds, each begun by another one, of SECONDS (3)
each, and a row has the median round. Loops measure the disk's own sync before each number of clients. Each client has a
connection of its own, spread over the nodes, and asks again as soon as it was answered: a write of 15 bytes, or a read
that has all that was written before. That is a collect of all nodes here, a linearizable get of etcd, and of ZooKeeper a
sync and a get behind it. All wait for their disks; etcd and ZooKeeper run as they come, and nodes are formatted with beta
2/3, so that each waits for two of three. TMPDIR says where the folders are made.
"""
import contextlib
import os
import pathlib
import shutil
import socket
import statistics
import struct
import subprocess
import sys
import tempfile
import time

from load import ANSWER, COUNTS, REFUSAL, Asker, percentile, run_clients, sync_times
from nodes import LOOPBACK, Cluster, end_on_signals, free_ports, processor_seconds, say

KEY, VALUE = b"/load", b"load-0123456789"
SECONDS_TO_START = 30
ROUNDS = 3
COLUMNS = "clients  kind         a s       p50       p99  processor   (microseconds; all three servers)"
JARS = "/usr/share/java/*"
ZOOKEEPER = "/usr/share/java/zookeeper.jar"


class Connection:
    """What the clients of another store have alike: a socket, and when they asked."""

    refusals = 0

    def __init__(self, port, kind):
        self.socket = socket.create_connection((LOOPBACK, port), timeout=10)
        self.socket.setsockopt(socket.IPPROTO_TCP, socket.TCP_NODELAY, 1)
        self.kind, self.data = kind, b""
        self.greet()

    def ask(self):
        self.start = time.perf_counter()
        self.ask_again()


def length_first(field):
    return bytes([len(field)]) + field


class EtcdAsker(Connection):
    """A call of etcd's gRPC at a time, over HTTP/2 without compression of headers."""

    def greet(self):
        self.stream, self.has_data, self.taken = -1, False, 0
        calls = {"write": (b"Put", b"\x0a" + length_first(KEY) + b"\x12" + length_first(VALUE)),
                 "read": (b"Range", b"\x0a" + length_first(KEY))}
        call, message = calls[self.kind]
        self.headers = b"".join([
            b"\x83\x86\x04", length_first(b"/etcdserverpb.KV/" + call), b"\x01", length_first(b"localhost"),
            b"\x0f\x10", length_first(b"application/grpc"), b"\x00", length_first(b"te"), length_first(b"trailers"),
        ])
        self.message = b"\x00" + struct.pack(">I", len(message)) + message
        self.socket.sendall(b"PRI * HTTP/2.0\r\n\r\nSM\r\n\r\n" + self.frame(4, 0, 0, b""))

    @staticmethod
    def frame(kind, flags, stream, payload):
        return struct.pack(">I", len(payload))[1:] + bytes([kind, flags]) + struct.pack(">I", stream) + payload

    def ask_again(self):
        self.stream, self.has_data = self.stream + 2, False
        self.socket.sendall(self.frame(1, 4, self.stream, self.headers) + self.frame(0, 1, self.stream, self.message))

    def hears(self):
        self.data += self.socket.recv(1 << 16)
        heard = None
        while len(self.data) >= 9 and len(self.data) >= (end := 9 + int.from_bytes(self.data[:3], "big")):
            kind, flags, stream = self.data[3], self.data[4], int.from_bytes(self.data[5:9], "big")
            payload, self.data = self.data[9:end], self.data[end:]
            heard = self.hear(kind, flags, stream, payload) or heard
        return heard

    def hear(self, kind, flags, stream, payload):
        if kind == 0:
            self.has_data, self.taken = True, self.taken + len(payload)
            # The connection's window is given back before it is used up.
            if self.taken > 16384:
                self.socket.sendall(self.frame(8, 0, 0, struct.pack(">I", self.taken)))
                self.taken = 0
        elif kind in (4, 6) and not flags & 1:
            self.socket.sendall(self.frame(kind, 1, 0, payload if kind == 6 else b""))
        elif stream == self.stream and (kind == 3 or kind == 1 and flags & 1):
            self.refusals += not self.has_data
            return ANSWER if self.has_data else REFUSAL
        return None


def jute(field):
    return struct.pack(">i", len(field)) + field


class ZooKeeperAsker(Connection):
    """A request of ZooKeeper at a time; of a read the two that make it one."""

    def greet(self):
        self.waiting = 0
        self.send(struct.pack(">iqiq", 0, 0, 30000, 0) + jute(bytes(16)) + b"\x00")
        self.read_reply()

    def send(self, body):
        self.socket.sendall(jute(body))

    def read_reply(self):
        data = b""
        while len(data) < 4 or len(data) < 4 + int.from_bytes(data[:4], "big"):
            piece = self.socket.recv(1 << 16)
            if not piece:
                raise ConnectionError("the server has closed the connection")
            data += piece
        return data[4:]

    def create(self):
        acl = struct.pack(">ii", 1, 31) + jute(b"world") + jute(b"anyone")
        self.send(struct.pack(">ii", 1, 1) + jute(KEY) + jute(VALUE) + acl + struct.pack(">i", 0))
        self.read_reply()

    def ask_again(self):
        if self.kind == "write":
            self.waiting = 1
            self.send(struct.pack(">ii", 2, 5) + jute(KEY) + jute(VALUE) + struct.pack(">i", -1))
        else:
            self.waiting = 2
            self.socket.sendall(jute(struct.pack(">ii", 3, 9) + jute(KEY)) + jute(struct.pack(">ii", 4, 4) + jute(KEY) + b"\x00"))

    def hears(self):
        self.data += self.socket.recv(1 << 16)
        while len(self.data) >= 4 and len(self.data) >= (end := 4 + int.from_bytes(self.data[:4], "big")):
            _, _, fault = struct.unpack_from(">iqi", self.data, 4)
            self.data = self.data[end:]
            self.waiting -= 1
            if fault:
                raise ConnectionError(f"ZooKeeper's fault {fault}")
        return None if self.waiting else ANSWER


class Servers:
    """Three servers of one kind in a fresh folder, which end with the `with` block."""

    def __init__(self, kind):
        self.kind, self.running = kind, []
        self.ports = free_ports(9)
        self.folder = pathlib.Path(tempfile.mkdtemp(prefix=f"{kind}-"))

    def __enter__(self):
        for place in range(3):
            words = {"etcd": self.etcd, "zookeeper": self.zookeeper}[self.kind](place)
            with open(self.folder / f"log-{place}", "ab") as log:
                self.running.append(subprocess.Popen(words, cwd=self.folder, stdout=log, stderr=log, start_new_session=True))
        return self

    def __exit__(self, *_):
        for process in self.running:
            process.kill()
            process.wait()
        shutil.rmtree(self.folder, ignore_errors=True)

    def etcd(self, place):
        client, peer = self.ports[place], self.ports[3 + place]
        cluster = ",".join(f"n{at}=http://{LOOPBACK}:{self.ports[3 + at]}" for at in range(3))
        return ["etcd", "--name", f"n{place}", "--data-dir", f"data-{place}", "--initial-cluster", cluster,
                "--listen-client-urls", f"http://{LOOPBACK}:{client}", "--advertise-client-urls", f"http://{LOOPBACK}:{client}",
                "--listen-peer-urls", f"http://{LOOPBACK}:{peer}", "--initial-advertise-peer-urls", f"http://{LOOPBACK}:{peer}",
                "--initial-cluster-state", "new", "--logger", "zap", "--log-level", "error"]

    def zookeeper(self, place):
        (self.folder / f"data-{place}").mkdir()
        (self.folder / f"data-{place}" / "myid").write_text(f"{place + 1}\n")
        servers = [f"server.{at + 1}={LOOPBACK}:{self.ports[3 + at]}:{self.ports[6 + at]}" for at in range(3)]
        settings = ["tickTime=2000", "initLimit=10", "syncLimit=5", "maxClientCnxns=0", "admin.enableServer=false",
                    f"dataDir={self.folder}/data-{place}", f"clientPort={self.ports[place]}", *servers]
        (self.folder / f"zoo-{place}.cfg").write_text("\n".join(settings) + "\n")
        return ["java", "-Xmx512m", "-cp", JARS, "org.apache.zookeeper.server.quorum.QuorumPeerMain", f"zoo-{place}.cfg"]

    def asker(self, number, kind):
        return {"etcd": EtcdAsker, "zookeeper": ZooKeeperAsker}[self.kind](self.ports[number % 3], kind)

    def wait_until_ready(self):
        end = time.monotonic() + SECONDS_TO_START
        while True:
            try:
                for place in range(3):
                    asker = self.asker(place, "write")
                    if self.kind == "zookeeper":
                        asker.create()
                    took, _ = run_clients([asker], 0.05)
                    if not took:
                        raise ConnectionError("no answer")
                    asker.socket.close()
                return
            except OSError:
                if time.monotonic() > end:
                    raise
                time.sleep(0.5)

    def processor_seconds(self):
        return sum(processor_seconds(process.pid) for process in self.running)


class Nodes:
    """Three nodes, as the other servers are asked."""

    def __init__(self, program, share, pause=0):
        self.cluster, self.pause = Cluster(program, 3, beta="2/3", share=share, name=""), pause
        # Who used each session last: a node serves 256 in its life, so the next client goes on behind that one.
        self.askers = {}

    def __enter__(self):
        self.cluster.__enter__()
        self.cluster.slow_down(self.pause)
        self.cluster.start_all()
        return self

    def __exit__(self, *_):
        self.cluster.__exit__()

    def wait_until_ready(self):
        self.cluster.wait_until_ready()

    def asker(self, number, kind):
        words, session = {"write": ["store", VALUE.decode()], "read": ["collect"]}[kind], number + 1
        asker, before = Asker(self.cluster.address(1 + number % 3), session, words), self.askers.get(session)
        asker.request = before.request if before else 0
        self.askers[session] = asker
        return asker

    def processor_seconds(self):
        return self.cluster.processor_seconds()


def measure(servers, count, kind, seconds):
    """Answers a second, their median and 99th percentile, what the servers spent on each, and how often they refused."""
    askers = [servers.asker(number, kind) for number in range(count)]
    before = servers.processor_seconds()
    took, passed = run_clients(askers, seconds)
    spent = servers.processor_seconds() - before
    for asker in askers:
        asker.socket.close()
    refusals = sum(asker.refusals for asker in askers)
    return len(took) / passed, percentile(took, 0.5), percentile(took, 0.99), spent / max(1, len(took)) * 1e6, refusals


def take_turns(systems, count, kind, seconds, rounds=ROUNDS):
    """What each system did in each round; in each another one begins."""
    names = list(systems)
    found = {name: [] for name in names}
    for number in range(rounds):
        first = number % len(names)
        for name in names[first:] + names[:first]:
            found[name].append(measure(systems[name], count, kind, seconds))
    return found


def print_row(name, count, kind, rounds):
    """The medians of the rounds."""
    rate, p50, p99, processor, _ = map(statistics.median, zip(*rounds))
    refusals = sum(measured[-1] for measured in rounds)
    note = f"   {refusals} refused" if refusals else ""
    say(f"{count:>7}  {kind:<6}{rate:>10.0f}{p50:>10.0f}{p99:>10.0f}{processor:>11.0f}   {name}{note}")


def print_syncs():
    with tempfile.TemporaryDirectory() as folder:
        alone, three = sync_times(folder, 0)
    say(f"a write with its sync: {alone:.0f} us alone, {three:.0f} us as one of three loops")


def enter_all(stack, systems):
    """Starts all, which end with that stack."""
    started = {name: stack.enter_context(made) for name, made in systems.items()}
    for servers in started.values():
        servers.wait_until_ready()
    return started


def main():
    end_on_signals()
    program, seconds = sys.argv[1], float(sys.argv[2]) if len(sys.argv) > 2 else 3.0
    systems = {"ccnode, share 1": Nodes(program, 1), "ccnode, share 32": Nodes(program, 32)}
    if shutil.which("etcd"):
        systems["etcd"] = Servers("etcd")
    if pathlib.Path(ZOOKEEPER).exists():
        systems["ZooKeeper"] = Servers("zookeeper")
    say(f"machine load before: {os.getloadavg()[0]:.2f}")
    with contextlib.ExitStack() as stack:
        started = enter_all(stack, systems)
        for count in COUNTS:
            print_syncs()
            say(COLUMNS)
            for kind in ("write", "read"):
                for name, rounds in take_turns(started, count, kind, seconds).items():
                    print_row(name, count, kind, rounds)


if __name__ == "__main__":
    main()
