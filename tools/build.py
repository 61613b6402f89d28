#!/usr/bin/env python3
"""Proves programs and what they stand on as `make test` does, and builds them: build.py PROGRAM..

`rt ci` does it in a copy of the tree that has these crates alone, without their edits. So where the kit keeps what was
proved, `make test` takes it from here, and this from there. A program that is newer than all that it stands on, as `make
test` leaves one, stays as it is. Each crate is kept as soon as it is proved, so a run that was interrupted goes on where it
stopped. A line is printed for each crate, once a minute one of what runs and what is left, and all that was said where
something fails; the status is 1 then."""
import heapq
import itertools
import os
import re
import shutil
import subprocess
import sys
import tempfile
import threading
import time

import chain
import costs


def whole(program):
    """A program and the crates of this repository that it stands on."""
    below, found, left = chain.crates_below(), set(), [program]
    while left:
        crate = left.pop()
        if crate not in found:
            found.add(crate)
            left += below[crate]
    return found


def program_of(crate):
    return f"crates/{crate}/out/{crate}"


def is_built(program, crates):
    """Whether a program is newer than all that it is proved from."""
    paths = ["crates.txt"]
    for crate, part in itertools.product(crates, ("src", "specs", "proofs")):
        for folder, _, names in os.walk(f"crates/{crate}/{part}"):
            paths += [folder, *(f"{folder}/{it}" for it in names)]
    made = program_of(program)
    return os.path.isfile(made) and max(map(os.path.getmtime, paths)) <= os.path.getmtime(made)


def copy_tree(crates, copy):
    """Copies these crates to the top of a repository of their own."""
    os.mkdir(f"{copy}/.git")
    shutil.copy("HANDLES", copy)
    with open("crates.txt", encoding="utf-8") as it:
        lines = [line for line in it if line.partition("#")[0].partition(":")[0].strip() in crates]
    with open(f"{copy}/crates.txt", "w", encoding="utf-8") as it:
        it.writelines(lines)
    for crate in crates:
        leave = shutil.ignore_patterns("out", "must-fail", "more-edits")
        shutil.copytree(f"crates/{crate}", f"{copy}/crates/{crate}", ignore=leave)


def finish_times(seconds, below, lanes):
    """When each crate is proved, in seconds from the start: on so many processors, first those with most behind them."""
    behind = dict.fromkeys(seconds, 0)
    for crate in reversed([*chain.in_order(below)]):
        behind[crate] += seconds[crate]
        for it in below[crate]:
            behind[it] = max(behind[it], behind[crate])
    finished, running, now = {}, [], 0
    while len(finished) < len(seconds):
        begun = {*finished, *(crate for _, crate in running)}
        ready = [it for it in seconds if it not in begun and all(below_it in finished for below_it in below[it])]
        for crate in sorted(ready, key=lambda it: -behind[it])[: lanes - len(running)]:
            heapq.heappush(running, (now + seconds[crate], crate))
        now, crate = heapq.heappop(running)
        finished[crate] = now
    return finished


class Progress:
    """What is proved and what is left, by the seconds that docs/GATE.md has of each crate."""

    def __init__(self, crates):
        every = chain.crates_below()
        self.below = {crate: [it for it in every[crate] if it in crates] for crate in crates}
        self.seconds = {crate: it for crate, it in chain.seconds_now(every, chain.measured()).items() if crate in crates}
        self.lanes, self.begun, self.proved, self.kept = len(os.sched_getaffinity(0)), time.time(), set(), set()

    def finish(self, crate, is_kept):
        (self.kept if is_kept else self.proved).add(crate)
        how_proved = "proved earlier on this machine" if is_kept else "proved"
        print(f"{len(self.proved | self.kept)} of {len(self.below)}: {crate}, {how_proved}", flush=True)

    def seconds_left(self):
        """As the page's machine would take them, times how much slower this one was until now."""
        times = finish_times({it: 0 if it in self.kept else s for it, s in self.seconds.items()}, self.below, self.lanes)
        elapsed, told = time.time() - self.begun, max((times[it] for it in self.proved), default=0)
        return max(max(times.values()) * (elapsed / told if told else 1) - elapsed, 0)

    def print_line(self, root):
        seen = {}
        costs.look(root, seen)
        running = sorted({crate for crate, _, _ in seen.values()} & set(self.below))
        minutes = [round(it / 60) for it in (time.time() - self.begun, self.seconds_left())]
        proved = len(self.proved | self.kept)
        print(
            f"after {minutes[0]} min: {proved} of {len(self.below)} crates are proved, {', '.join(running) or 'none'} under way, "
            f"about {minutes[1]} min left",
            flush=True,
        )


def prove_all(crates, copy):
    """Proves all crates of a copy. Whether nothing failed."""
    how = {"stdin": subprocess.DEVNULL, "stdout": subprocess.PIPE, "stderr": subprocess.STDOUT}
    said, progress, is_over = [], Progress(crates), threading.Event()
    with subprocess.Popen(["rt", "ci"], cwd=copy, text=True, errors="replace", **how) as ran:

        def tell():
            while not is_over.wait(60):
                progress.print_line(ran.pid)

        teller = threading.Thread(target=tell, daemon=True)
        teller.start()
        for line in ran.stdout:
            said.append(line.replace(f"{copy}/", ""))
            if told := re.match(r"rt: (\w+) (?:proved$|is (kept)\b)", line):
                progress.finish(told[1], bool(told[2]))
        is_over.set()
        teller.join()
    if ran.returncode:
        print(*said, sep="")
    return not ran.returncode


def build(programs, crates):
    """Proves these programs with all the crates that they stand on. The status."""
    with tempfile.TemporaryDirectory(prefix="building.") as copy:
        begun = time.time()
        copy_tree(crates, copy)
        if not prove_all(crates, copy):
            return 1
        for made in map(program_of, programs):
            os.makedirs(os.path.dirname(made), exist_ok=True)
            shutil.copy(f"{copy}/{made}", f"{made}.new")
            # What changed meanwhile isn't in it.
            os.utime(f"{made}.new", (begun, begun))
            os.replace(f"{made}.new", made)
    return 0


def main(programs):
    os.chdir(os.path.dirname(os.path.dirname(os.path.abspath(__file__))))
    if not programs or not all(os.path.isfile(f"crates/{it}/src/main.rt") for it in programs):
        sys.exit("say which programs of crates/: build.py PROGRAM..")
    wanted = [it for it in programs if not is_built(it, whole(it))]
    return build(wanted, set().union(*map(whole, wanted))) if wanted else 0


if __name__ == "__main__":
    try:
        sys.exit(main(sys.argv[1:]))
    except KeyboardInterrupt:
        sys.exit("interrupted: each crate that was proved is kept, and the next run goes on from there")
