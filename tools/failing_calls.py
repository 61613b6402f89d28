#!/usr/bin/env python3
"""Has each disk call of a node on two files fail in turn, and each read and write in turn move a single byte.

usage: failing_calls.py PROGRAM

It formats folders, dumps them, and runs nodes that are asked to store, each with one call that fails or is short, until a
run meets none. A call that fails is told as a fault, with status 1; one that is short changes nothing. What is opened then
is a node that has each store that was answered, and at most the one that wasn't. It prints counts, and ends with status 1
at the first that isn't so.
"""
import os
import pathlib
import re
import subprocess
import sys
import tempfile

import nodes
from nodes import NoAnswer, Session, say

STORES = 3
FAULT = re.compile(r"(fault )?(Device|Failed) [AB] (Length|Read|Write|Cut|Sync)")
CALL = {"FAILED_CALL": "a call fails", "SHORT_CALL": "a call is short"}


class Failure(Exception):
    """Something isn't as it must be."""


def check(holds, what):
    if not holds:
        raise Failure(what)


def built(folder):
    """The library that fails a call."""
    library = folder / "fail_call.so"
    source = pathlib.Path(__file__).resolve().parent / "fail_call.c"
    subprocess.run(["cc", "-O1", "-shared", "-fPIC", "-o", library, source], check=True)
    return str(library)


class Tries:
    """Runs of the program, each with one call that is spoiled."""

    def __init__(self, program, library, folder, spoil):
        self.program, self.library, self.folder, self.spoil = program, library, folder, spoil

    def run(self, words, number=0):
        """The status, what is printed, and whether the call with that number was met. With 0 no call is spoiled."""
        settings = {**os.environ, "LD_PRELOAD": self.library, self.spoil: str(number)} if number else None
        ran = subprocess.run([self.program, *words], cwd=self.folder, env=settings, capture_output=True, text=True)
        return ran.returncode, ran.stdout.strip(), CALL[self.spoil] in ran.stderr

    def check_ended(self, status, last_line):
        """A call that fails is told, but for those that nothing of a side hangs on; one that is short isn't seen."""
        is_fault = status == 1 and FAULT.fullmatch(last_line)
        check(status == 0 or (is_fault and self.spoil == "FAILED_CALL"), f"{status} {last_line}")
        return int(bool(is_fault))

    def formats(self):
        """Formats a new folder each time: it is formatted then, or can be."""
        faults = 0
        for number in range(1, 10_000):
            name = f"format-{self.spoil}-{number}"
            (self.folder / name).mkdir()
            words = ["format", name, "1", "--initial", "1"]
            status, printed, is_met = self.run(words, number)
            if not is_met:
                return number - 1, faults
            faults += self.check_ended(status, printed)
            check(self.run(words)[1] in ("formatted 1", "AlreadyFormatted"), "formatting again")
            check(self.run(["dump", name])[0] == 0, "a formatted folder")

    def dumps(self):
        """Dumps one folder again and again: it stays as it is."""
        (self.folder / "dumped").mkdir(exist_ok=True)
        self.run(["format", "dumped", "1", "--initial", "1"])
        whole, faults = self.run(["dump", "dumped"]), 0
        for number in range(1, 10_000):
            status, printed, is_met = self.run(["dump", "dumped"], number)
            if not is_met:
                return number - 1, faults
            faults += self.check_ended(status, printed.splitlines()[-1])
            check(status == 1 or printed == whole[1], "what a dump prints")
            check(self.run(["dump", "dumped"]) == whole, "the folder after a dump")

    def lives(self):
        """Runs a node that is asked to store, and once more after a fault."""
        faults = 0
        for number in range(1, 10_000):
            with nodes.Cluster(self.program, 1, preloads={1: self.library}) as cluster:
                os.environ[self.spoil] = str(number)
                answered = stores(cluster)
                del os.environ[self.spoil]
                said = (cluster.folder / "log-1").read_text()
                if CALL[self.spoil] not in said:
                    return number - 1, faults
                faults += self.ended(cluster, said, answered)
                cluster.preloads.clear()
                cluster.start(1)
                check(answered <= stored(cluster) <= answered + 1, f"{stored(cluster)} stored of {answered} answered")

    def ended(self, cluster, said, answered):
        """Whether the node has ended by its fault. It goes on where the call was short."""
        process = cluster.running[1]
        if self.spoil == "SHORT_CALL":
            check(answered == STORES and process.poll() is None, "a short call stops a node")
            cluster.kill(1)
            return 0
        process.wait(timeout=10)
        cluster.running.pop(1)
        check(any(FAULT.fullmatch(line) for line in said.splitlines()), f"no fault in {said}")
        check(process.returncode == 1, f"status {process.returncode}")
        return 1


def stores(cluster):
    """How many stores a node that is started now answers, until it ends."""
    cluster.start(1)
    session = Session(cluster.address(1), 7)
    try:
        for number in range(STORES):
            while cluster.running[1].poll() is None:
                try:
                    session.ask(["store", f"value-{number}"], 0.3)
                    break
                except NoAnswer:
                    continue
            else:
                return number
        return STORES
    finally:
        session.close()


def stored(cluster):
    """How many stores the node has taken in."""
    seen = Session(cluster.address(1), 8).ask(["collect"], 20)
    row = re.search(r"1:(\d+)=", seen)
    return int(row[1]) if row else 0


def main():
    nodes.end_on_signals()
    program = os.path.realpath(sys.argv[1])
    try:
        with tempfile.TemporaryDirectory() as room:
            folder = pathlib.Path(room)
            library = built(folder)
            for spoil, what in (("FAILED_CALL", "failed"), ("SHORT_CALL", "short")):
                tries = Tries(program, library, folder, spoil)
                for kind in (tries.formats, tries.dumps, tries.lives):
                    calls, faults = kind()
                    say(f"{kind.__name__}: {calls} calls {what} in turn, {faults} told as a fault")
    except Failure as failure:
        say(f"FAILED: {failure}")
        sys.exit(1)


if __name__ == "__main__":
    main()
