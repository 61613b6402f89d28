#!/usr/bin/env python3
"""Makes the mistakes that a new user makes, and compares what is printed with what docs/RUN.md says of each.

    mistakes.py crates/ccnode/out/ccnode

Each is a command of the program: its status, its standard output, and what its standard error has to say, word by word
but for addresses and paths that the tool chose. Nodes listen on loopback, in folders that go at the end. A user who may
do anything, as root, isn't refused a file, so that row is left out for him. The status is 1 where something differs.
"""
import os
import shutil
import socket
import subprocess
import sys
import time
import urllib.error
import urllib.request

from nodes import LOOPBACK, Cluster, Verdicts, end_on_signals, free_ports

ABSENT = "node-9"
# A store of 65 bytes.
LONG = "x" * 65


def of_words(address):
    """Words that aren't of their form: the command, and what standard error says behind `ccnode: `."""
    run = ["run", "node-1", "--listen", address]
    ask = ["ask", address, "7"]
    return [
        (["ask", "127.0.0.256:7001", "7", "collect"], "ADDR isn't an address and a port, such as 127.0.0.1:7001"),
        (["ask", address, "seven", "collect"], "SESSION isn't a number, such as 7"),
        ([*ask, "stor", "a"], "stor is no command; did you mean store?"),
        ([*ask, "store", LONG], "store takes 1 to 64 bytes; this has 65"),
        ([*ask, "store", "ä"], "store takes a word of visible ASCII characters; others go behind --text"),
        ([*ask, "store", "a", "--text", "b"], "store takes a word or --text, not both"),
        ([*ask, "store"], "store takes a value"),
        ([*ask, "add", "4294967296"], "add takes a number from 0 to 4294967295"),
        ([*ask, "max", "-"], "max takes a number from 0 to 18446744073709551615"),
        ([*ask, "collect", "now"], "collect takes no value"),
        ([*ask, "collect", "--text", "a"], "collect takes no --text, as store does"),
        ([*ask, "collect", "--request", "0"], "--request isn't a number from 1 on, such as 12"),
        ([*ask, "collect", "--timeout", "soon"], "--timeout isn't a number of seconds, such as 10"),
        ([*ask, "collect", "--status", "here"], "--status isn't an address and a port, such as 127.0.0.1:8001"),
        (["share", address, "33"], "N isn't a number from 1 to 32, such as 8"),
        (["retire", address, "0"], "ID isn't the id of a node, such as 3"),
        (["retire", address], "retire takes ADDRS and ID, or --peers-file FILE and ID"),
        (["retire", address, "2", "--peers-file", "peers"], "retire takes ADDRS and ID, or --peers-file FILE and ID"),
        (["retire", f"{address},7002", "2"],
         "ADDRS isn't a list of addresses and ports, such as 127.0.0.1:7001,127.0.0.1:7002"),
        (["retire", "2", "--peers-file", "peers"], "peers names no node but the one to retire"),
        (["retire", "2", "--peers-file", "no-file"], "no-file: No such file or directory"),
        (["format", ABSENT, "one"], "ID isn't a number, such as 4"),
        (["format", ABSENT, "1", "--initial", "1;2"], "--initial isn't a list of numbers, such as 1,2,3"),
        (["format", ABSENT, "1", "--contacts", ""], "--contacts isn't a list of numbers, such as 1,2,3"),
        (["format", ABSENT, "1", "--beta", "0.8"], "--beta isn't a fraction, such as 4/5"),
        (["format", ABSENT, "1", "--gamma", "80%"], "--gamma isn't a fraction, such as 4/5"),
        (["format", ABSENT, "1", "--share", "all"], "--share isn't a number, such as 32"),
        (["run", "node-1", "--listen", "7001"], "--listen isn't an address and a port, such as 127.0.0.1:7001"),
        ([*run, "--peers", "2"], "--peers isn't a list of peers, such as 2=127.0.0.1:7002,3=127.0.0.1:7003"),
        ([*run, "--peers", "2=127.0.0.1:1,2=127.0.0.1:2"], "--peers names a node twice"),
        ([*run, "--peers", "1=127.0.0.1:1"], "--peers names the node itself"),
        ([*run, "--peers", f"2={address}"], "--peers names the node itself"),
        ([*run, "--peers", "2=127.0.0.1:1", "--peers-file", "peers"],
         "--peers and --peers-file are both given; one of them names the peers"),
        ([*run, "--peers-file", "no-file"], "no-file: No such file or directory"),
        ([*run, "--peers-file", "faulty-peers"], "faulty-peers line 3 isn't ID=ADDR, such as 2=127.0.0.1:7002"),
        ([*run, "--peers-file", "double-peers"], "double-peers names a node twice"),
        ([*run, "--status", "here"], "--status isn't an address and a port, such as 127.0.0.1:8001"),
        ([*run, "--listen-clients", "7501"],
         "--listen-clients isn't an address and a port, such as 127.0.0.1:7501"),
        ([*run, "--operators", "nobody"], "--operators isn't one of: on, off"),
        ([*run, "--log", "loud"], "--log isn't one of: error, warn, info, debug"),
    ]


# A beginning that no node has, and the rule that standard error names.
BEGINNINGS = [
    (["1", "--initial", "1,2", "--beta", "6/5"], "--beta isn't a fraction above 0 and at most 1"),
    (["1", "--initial", "1,2", "--gamma", "0/5"], "--gamma isn't a fraction above 0 and at most 1"),
    (["1", "--initial", "2,1"], "--initial doesn't ascend: each number is greater than the one before it"),
    (["4", "--contacts", "2,1"], "--contacts doesn't ascend: each number is greater than the one before it"),
    (["4", "--initial", "1,2"],
     "the node isn't in its own --initial: a member at the start is, and one that enters later has none"),
    (["4", "--contacts", "1,4"], "the node is among its own --contacts: they are others"),
    (["0", "--contacts", "1,2"], "an id is 0: they begin at 1"),
    (["1", "--initial", "1,2", "--share", "33"], "--share isn't a number from 1 to 32"),
    (["1", "--initial", ",".join(map(str, range(1, 258)))],
     "--initial and --contacts name more than 256 nodes, itself among them"),
]


class Shown(Cluster):
    """A cluster whose nodes tell their status."""

    def __init__(self, *words):
        self.pages = {}
        super().__init__(*words)
        self.pages = dict(zip(self.nodes, free_ports(len(self.nodes))))

    def page(self, node):
        return f"{LOOPBACK}:{self.pages[node]}"

    def run_words(self, node):
        return [*super().run_words(node), "--status", self.page(node)]

    def reason(self, node):
        """Why a node isn't ready, once it isn't for another reason than that it has just been started."""
        for _ in range(100):
            try:
                urllib.request.urlopen(f"http://{self.page(node)}/readyz", timeout=1).close()
            except urllib.error.HTTPError as error:
                said = error.read().decode().strip()
                if "just been started" not in said:
                    return said
            except OSError:
                pass
            time.sleep(0.1)
        return "it is ready"


class Mistakes:
    """Runs commands in the folder of a cluster, and compares."""

    def __init__(self, cluster, verdicts):
        self.cluster, self.verdicts, self.count = cluster, verdicts, 0

    def compare(self, words, status, output, error):
        """The command ends so and prints just that, if it is given, and a line of standard error has the rest."""
        done = subprocess.run([self.cluster.program, *words], cwd=self.cluster.folder, capture_output=True, text=True,
                              timeout=60, check=False)
        said = done.stderr.splitlines()
        holds = output is None or (done.returncode, done.stdout.strip()) == (status, output)
        holds = holds and (not error or any(error in line for line in said))
        self.count += 1
        if not holds:
            shown = " ".join(word if len(word) < 40 else f"{word[:37]}..." for word in words)
            self.verdicts.add(False, f"{shown}: {done.returncode} {done.stdout.strip()!r} {said}")

    def make_words(self):
        """A word of another form: status 2, nothing on standard output."""
        for words, error in of_words(self.cluster.address(1)):
            self.compare(words, 2, "", f"ccnode: {error}")

    def make_folders(self):
        """Folders that aren't there, aren't folders, are empty, or begin as no node does."""
        folder, address = self.cluster.folder, self.cluster.address(1)
        run = ["--listen", address]
        self.compare(["run", ABSENT, *run], 1, "Device A Length", f"ccnode: {ABSENT}: no such folder")
        (folder / "a-file").write_text("")
        self.compare(["run", "a-file", *run], 1, "Device A Length", "ccnode: a-file: not a folder")
        (folder / "empty").mkdir()
        self.compare(["run", "empty", *run], 1, "NotFormatted", "")
        self.compare(["format", "node-1", "1"], 1, "AlreadyFormatted", "")
        for words, rule in BEGINNINGS:
            self.compare(["format", "empty", *words], 1, "BadOpening", f"ccnode: {rule}")
        if os.geteuid():
            (folder / "closed").mkdir(mode=0o500)
            self.compare(["run", "closed", *run], 1, "Device A Length", "ccnode: closed/lock: permission denied")

    def lose_files(self):
        """A file of a folder is lost."""
        folder = self.cluster.folder
        for lost, said in ((["side-a"], "side-a is missing while side-b is there"),
                           (["side-b"], "side-b is missing while side-a is there"),
                           (["side-a", "side-b"], "side-a and side-b are missing while lock is there")):
            name = f"without-{'-'.join(lost)}"
            shutil.copytree(folder / "node-2", folder / name)
            for it in lost:
                (folder / name / it).unlink()
            self.compare(["dump", name], None, None,
                         f"ccnode: {name}: {said}: a lost file isn't an unformatted folder")

    def ask_nobody(self):
        """Nothing listens there, or too few answer."""
        nobody = f"{LOOPBACK}:{free_ports(1)[0]}"
        quick = ["--timeout", "1"]
        self.compare(["ask", nobody, "7", "collect", *quick], 1, "no answer", f"ccnode: nothing listens at {nobody}")
        self.compare(["status", nobody], 1, "no answer", f"ccnode: nothing listens at {nobody}")
        self.cluster.start(1)
        address = self.cluster.address(1)
        wait_for(address)
        self.compare(["ask", address, "7", "collect", *quick], 1, "no answer",
                     f"ccnode: {address} took the request, but too few members answer")
        reason = self.cluster.reason(1)
        self.compare(["ask", address, "8", "collect", *quick, "--status", self.cluster.page(1)], 1, "no answer",
                     f"ccnode: {reason}")
        self.compare(["status", address], 1, "no answer", f"ccnode: {address} isn't where a node tells its status")

    def ask_deaf(self):
        """An address that takes no connection: its queue is full."""
        with socket.socket() as deaf:
            deaf.bind((LOOPBACK, 0))
            deaf.listen(0)
            address = f"{LOOPBACK}:{deaf.getsockname()[1]}"
            waiting = [socket.socket() for _ in range(4)]
            for it in waiting:
                it.setblocking(False)
                it.connect_ex(deaf.getsockname())
            began = time.monotonic()
            self.compare(["ask", address, "7", "collect", "--timeout", "2"], 1, "no answer",
                         f"ccnode: {address} doesn't answer")
            took = time.monotonic() - began
            self.count += 1
            if not 1.9 < took < 2.15:
                self.verdicts.add(False, f"ask --timeout 2 at an address that takes no connection took {took:.2f} s")
            for it in waiting:
                it.close()

    def retire_wrongly(self):
        """A node retires itself, or one that it hears; and one that has left retires another."""
        address = self.cluster.address(1)
        self.cluster.start(2)
        wait_for(self.cluster.address(2))
        time.sleep(2)
        self.compare(["ask", address, "9", "collect"], 0, "Seen []", "")
        self.compare(["retire", address, "1"], 1, "refused 32 Itself",
                     f"ccnode: that is the node at {address} itself: `ccnode leave {address}` has it leave")
        self.compare(["retire", address, "2"], 1, "refused 33 Alive",
                     "ccnode: that node was heard within three seconds: --alive retires it all the same")
        self.compare(["leave", address], 0, "left", "")
        self.compare(["leave", address], 0, "left", "")
        self.compare(["retire", address, "2", "--alive"], 1, "refused 1 Left", "")

    def take_twice(self):
        """A folder, and an address, that a running node has."""
        address = self.cluster.address(1)
        held = "ccnode: node-1/lock: held by another program"
        self.compare(["run", "node-1", "--listen", f"{LOOPBACK}:0"], 1, "Device A Length", held)
        self.compare(["format", "node-1", "1"], 1, "Device A Length", held)
        self.compare(["dump", "node-1"], 1, "fault Device A Length", held)
        self.compare(["run", "node-2", "--listen", address], 1, "Listen", f"can't listen at {address}: Address")


def wait_for(address):
    """Until a node listens there."""
    host, port = address.rsplit(":", 1)
    for _ in range(100):
        try:
            socket.create_connection((host, int(port)), timeout=1).close()
            return
        except OSError:
            time.sleep(0.1)


def main(program):
    end_on_signals()
    verdicts = Verdicts()
    with Shown(program, 2) as cluster:
        mistakes = Mistakes(cluster, verdicts)
        (cluster.folder / "peers").write_text("2=127.0.0.1:2\n")
        (cluster.folder / "faulty-peers").write_text("# peers\n2=127.0.0.1:2\n3:127.0.0.1:3\n")
        (cluster.folder / "double-peers").write_text("2=127.0.0.1:2\n2=127.0.0.1:3\n")
        mistakes.make_words()
        mistakes.make_folders()
        mistakes.lose_files()
        mistakes.ask_nobody()
        mistakes.ask_deaf()
        mistakes.take_twice()
        mistakes.retire_wrongly()
        verdicts.add(verdicts.is_good, f"{mistakes.count} mistakes are told as docs/RUN.md says")
    return 0 if verdicts.is_good else 1


if __name__ == "__main__":
    sys.exit(main(*sys.argv[1:]))
