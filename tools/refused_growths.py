#!/usr/bin/env python3
"""Refuses each growth of each test of these crates once: refused_growths.py CRATE..

A test may then pass, or be answered an error, by which it ends or at whose `expect` it stops: want of memory, or the failed call
of a disk in memory, which can't grow. Where it compares an answer that is an error with another one, it stops at that line,
which is counted. Where it compares what the call was to leave as it was with how that was before (`unless_failed` of the
tests), that is counted too. A test that ends in any other way, as at an `expect` that names no such error, finds something
changed, or doesn't end within a minute (status 142, or 124), is printed, and the status is 1. A
test that runs threads is run anew for each growth; which growth has a number then depends on how they fall together. The
tests are those that `rt test` built; as many are run side by side as there are processors.

Of a crate that is a program over files of cases (`golden_files`) each case is a test, as the program plays it when it is
named. It passes if it prints what it prints without a refusal, and answers an error by its status, 1."""
import collections
import concurrent.futures
import glob
import os
import re
import subprocess
import sys
import tempfile

SECONDS = 60
COPIES = 3 * 60 * 60
# What a test says that has looked at what a refused call left.
KEPT, CHANGED = "failed, and all is as it was", "failed, and something has changed"
# What an `expect` says of want of memory, or of a disk in memory that can't grow.
WANTING = re.compile(rf": .*(?:NoMemory|OutOfMemory|AllocError|AllocFailed|Device|Failed)|{KEPT}")
# Where a test stopped.
PLACE = re.compile(r"test stopped at (src/\S+?):(\d+):(\d+)")


def run(tests, name, preloaded, **words):
    """How a test ended, what it wrote, and what the preloaded code told. The name is words of the command line, which runs
    where the crate's files of cases are, if it has any."""
    with tempfile.TemporaryDirectory() as room:
        told = f"{room}/told"
        env = {**os.environ, "LD_PRELOAD": preloaded, "GROWTHS_TOLD": told, "GROWTHS_SAID": f"{room}/said", **words}
        limit = SECONDS if words else COPIES
        crate = os.path.dirname(os.path.dirname(tests))
        cases = f"{crate}/data"
        how = {"cwd": cases if os.path.isdir(cases) else crate, "env": env, "timeout": limit, "errors": "replace"}
        try:
            ran = subprocess.run([tests, *name.split()], stdout=subprocess.PIPE, stderr=subprocess.STDOUT, **how)
            ended, said = ran.returncode, ran.stdout
        except subprocess.TimeoutExpired:
            ended, said = 124, "it didn't end in time"
        if not os.path.exists(told):
            return ended, said, []
        with open(told, errors="replace", newline="\n") as it:
            return ended, said, it.read().rstrip("\n").split("\n")


def is_comparison(crate, place):
    """Whether an `assert!` stands where a test stopped."""
    file, line, column = place.groups()
    with open(f"crates/{crate}/{file}", encoding="utf-8") as it:
        return it.read().split("\n")[int(line) - 1][int(column) - 1 :].startswith("assert!")


def kind_of(crate, ended, said, plain):
    """What a refused growth came to: the test passed, was answered an error, after a look at what was kept or without one, or
    stopped at a comparison, else None. `plain` is what a program writes without a refusal, and None of tests."""
    if plain is not None:
        # (a copy writes what stands behind the growth alone)
        is_same = plain.endswith(said.strip())
        return {0: "passed" if is_same else None, 1: "error" if "Error: " in said else None}.get(ended)
    if ended == 0:
        return "passed"
    place = PLACE.search(said) if ended in (134, -6) else None
    if CHANGED not in said and place and is_comparison(crate, place):
        return "stop"
    is_told = WANTING.search(said) if place else ended == 101 and "its result gives status 1" in said
    if not is_told or CHANGED in said:
        return None
    return "kept" if KEPT in said else "error"


def ends_one_by_one(tests, name, preloaded):
    """The ends of a test of which a run of its own refuses each growth."""
    growth = 1
    while True:
        ended, said, told = run(tests, name, preloaded, REFUSED_GROWTH=str(growth))
        if "refused" not in told:
            return
        yield growth, ended, said
        growth += 1


def ends_of(tests, name, preloaded):
    """For each growth of a test its number, how the test ended that was refused it, and the end of what that wrote."""
    ended, said, told = run(tests, name, preloaded)
    if "threads" in told:
        return list(ends_one_by_one(tests, name, preloaded))
    ends = [(int(growth), int(status), text) for growth, status, text in (line.split(" ", 2) for line in told)]
    # (the run itself is refused nothing)
    return ends if ended == 0 else [*ends, (0, ended, said)]


def names_of(tests):
    """The names of the tests of a program: of one over files of cases `CHAPTER CASE`."""
    names = []
    for path in sorted(glob.glob(f"{os.path.dirname(os.path.dirname(tests))}/data/*.txt")):
        with open(path, encoding="utf-8") as it:
            names += [f"{os.path.basename(path)[:-4]} {case}" for case in re.findall(r"^== (\w+)$", it.read(), re.M)]
    if names:
        return names
    said = subprocess.run([tests, "--list"], stdout=subprocess.PIPE, stderr=subprocess.DEVNULL, text=True).stdout
    return re.findall(r"^(.*): test$", said, re.M)


def run_plain(tests, name):
    """What a program over files of cases writes of one of them, with blanks for newlines."""
    cases = f"{os.path.dirname(os.path.dirname(tests))}/data"
    ran = subprocess.run([tests, *name.split()], cwd=cases, stdout=subprocess.PIPE, text=True, check=True)
    return ran.stdout.replace("\n", " ").strip()


def try_crate(crate, preloaded, pool):
    """Refuses the growths of a crate's tests. Whether each ended as it may."""
    is_program = os.path.isfile(f"crates/{crate}/src/main.rt")
    tests = os.path.abspath(f"crates/{crate}/out/{crate}{'' if is_program else '_tests'}")
    names = names_of(tests)
    if not names:
        sys.exit(f"{crate}: {tests} lists no test")
    kinds, is_well = collections.Counter(), True
    for name, ends in zip(names, pool.map(lambda it: ends_of(tests, it, preloaded), names)):
        plain = run_plain(tests, name) if is_program else None
        for growth, ended, said in ends:
            kind = kind_of(crate, ended, said, plain)
            kinds[kind] += 1
            if kind is None:
                is_well = False
                print(f"{crate} {name}: growth {growth} refused ends in status {ended}: {said[-200:].strip()}")
    refused = sum(kinds.values())
    errors = kinds["error"] + kinds["kept"]
    print(f"{crate}: {refused} growths refused: {errors} answered as an error, {kinds['kept']} of them with all as it was before, "
          f"{kinds['stop']} seen by a comparison", flush=True)
    return is_well


def main(crates):
    os.chdir(os.path.dirname(os.path.dirname(os.path.abspath(__file__))))
    with tempfile.TemporaryDirectory() as room, concurrent.futures.ThreadPoolExecutor(os.cpu_count()) as pool:
        preloaded = f"{room}/refuse.so"
        subprocess.run(["cc", "-O1", "-shared", "-fPIC", "-o", preloaded, "tools/refuse_growth.c", "-ldl"], check=True)
        return 0 if all([try_crate(it, preloaded, pool) for it in crates]) else 1


if __name__ == "__main__":
    sys.exit(main(sys.argv[1:]))
