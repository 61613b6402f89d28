#!/usr/bin/env python3
"""Runs the gate from nothing, and prints what each crate cost it, in seconds of the processors: costs.py [CRATE..]

With names it runs the gate of these crates and those below them. It looks each second at the processes that `rt ci` has,
so what lives for less than that counts little; the last line has what the processors did in all, by their own count. What
`rt ci` says goes to standard error, and the status is its own."""
import collections
import os
import re
import resource
import subprocess
import sys
import time

TICKS = os.sysconf("SC_CLK_TCK")
KINDS = ("Proof", "Tests", "Edits", "Code")


def read_process(number):
    """The words, the parent, the begin and the seconds of a process, and the folder that it works in."""
    with open(f"/proc/{number}/cmdline", "rb") as it:
        words = it.read().decode(errors="replace").split("\0")
    with open(f"/proc/{number}/stat", encoding="utf-8") as it:
        fields = it.read().rpartition(")")[2].split()
    return words, int(fields[1]), fields[19], (int(fields[11]) + int(fields[12])) / TICKS, os.readlink(f"/proc/{number}/cwd")


def kind_of(words, folder):
    """What a process does for a crate."""
    if os.path.basename(words[0]) != "rattle":
        return "Code"
    if "/rt-edit" in folder:
        return "Edits"
    return "Tests" if "--test" in words else "Proof"


def crate_of(words, folder):
    """The crate that a process works for."""
    if "--crate-name" in words[:-1]:
        return words[words.index("--crate-name") + 1]
    named = re.search(r"/crates/(\w+)", " ".join([folder, *words]))
    return named[1] if named else "others"


def look(root, seen):
    """Notes the seconds of each process below that one."""
    parents, found = {}, {}
    for number in filter(str.isdigit, os.listdir("/proc")):
        try:
            words, parent, begun, seconds, folder = read_process(number)
        except OSError:
            continue
        parents[int(number)] = parent
        found[int(number)] = (begun, words, folder, seconds)
    for number, (begun, words, folder, seconds) in found.items():
        above = number
        while above not in (0, root):
            above = parents.get(above, 0)
        if above == root and number != root and words[0]:
            seen[number, begun] = (crate_of(words, folder), kind_of(words, folder), seconds)


def print_costs(seen, whole):
    costs = collections.defaultdict(collections.Counter)
    for crate, kind, seconds in seen.values():
        costs[crate][kind] += seconds
    print("| Crate |", " | ".join(KINDS), "| In all |")
    print("|---|" + "---|" * (len(KINDS) + 1))
    for crate, by_kind in sorted(costs.items(), key=lambda it: -it[1].total()):
        print(f"| `{crate}` |", *(f"{by_kind[it]:.0f} |" if by_kind[it] else " |" for it in KINDS), f"{by_kind.total():.0f} |")
    print(f"in all {sum(it.total() for it in costs.values()):.0f} seconds, and {whole:.0f} by the processors' own count")


def main(crates):
    os.chdir(os.path.dirname(os.path.dirname(os.path.abspath(__file__))))
    seen = {}
    gate = subprocess.Popen(["rt", "ci", "--anew", *crates], stdin=subprocess.DEVNULL, stdout=sys.stderr)
    while gate.poll() is None:
        look(gate.pid, seen)
        time.sleep(1)
    used = resource.getrusage(resource.RUSAGE_CHILDREN)
    print_costs(seen, used.ru_utime + used.ru_stime)
    return gate.returncode


if __name__ == "__main__":
    sys.exit(main(sys.argv[1:]))
