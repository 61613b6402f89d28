#!/usr/bin/env python3
"""Prints how many bytes are copied for a commit of the engine on two files: those of all calls of memcpy and memmove from
the end of the commit before to its own end, while its stores are decided on, made durable and put out.

    copied_bytes.py crates/cc_bench/out/cc_bench

It runs `cc_bench engine` with tools/count_copies.c preloaded, and needs a C compiler. A commit writes its record, syncs,
opens the record's gate and syncs; so commits of one kind have records of one length.
"""
import collections
import os
import pathlib
import statistics
import subprocess
import sys
import tempfile

COUNTER = pathlib.Path(__file__).resolve().parent.parent / "tools" / "count_copies.c"
# Records of other lengths are those of acknowledgements, and the last ones of their rounds.
COMMITS_AT_LEAST = 100


def syncs_of(program, folder):
    """What was written, copied and called before each sync of `cc_bench engine`."""
    library, log = os.path.join(folder, "count_copies.so"), os.path.join(folder, "copies")
    words = ["cc", "-O1", "-shared", "-fPIC", "-fno-builtin", "-o", library, str(COUNTER)]
    subprocess.run(words, check=True)
    settings = {**os.environ, "LD_PRELOAD": library, "COPIES": log}
    subprocess.run([program, "engine"], cwd=folder, env=settings, check=True, stdout=subprocess.DEVNULL)
    return [tuple(map(int, line.split())) for line in pathlib.Path(log).read_text().splitlines()]


def commits_of(syncs):
    """The copied bytes and the calls of each commit, by the length of its record."""
    commits = collections.defaultdict(list)
    for (record, copied, calls), (gate, more, others) in zip(syncs, syncs[1:]):
        if record > 1 and gate == 1:
            commits[record].append((copied + more, calls + others))
    return commits


def main():
    with tempfile.TemporaryDirectory() as folder:
        commits = commits_of(syncs_of(os.path.realpath(sys.argv[1]), folder))
    for record, counts in commits.items():
        if len(counts) >= COMMITS_AT_LEAST:
            copied, calls = (statistics.median(column) for column in zip(*counts))
            print(f"a record of {record} bytes: {copied:.0f} bytes copied in {calls:.0f} calls, the median of {len(counts)} commits")


if __name__ == "__main__":
    main()
