#!/usr/bin/env python3
"""Computes the longest chain of crates that the proof of the program waits for, and fails where it has grown.

docs/GATE.md has a table of crates: the seconds of a processor that each took when it was measured, how many of them its proof
and its tests' proof took, and the lines of code and proofs that it had then. A crate that has more or fewer lines now is
reckoned to take as many seconds for each line; one that isn't in the table yet, as many as all crates together. A crate starts
when all that it stands on is proved, and waits for no edit, so a program takes no less than its longest chain of proofs. The
status is 1 where the chain of ccnode is more than a twentieth longer than the page allows, where the table has other crates
than crates.txt, or where its fourth column isn't the chain.

    chain.py               looks, and prints the chain
    chain.py --table FILE  prints the table anew, with the seconds of a table that `make costs` printed"""
import graphlib
import os
import re
import sys

PAGE = "docs/GATE.md"
PROGRAM = "ccnode"
ROW = re.compile(r"^\| `(\w+)` \| ([\d,]+) \| ([\d,]+) \| ([\d,]+) \| ([\d,]+) \|", re.MULTILINE)
# A crate's proof, its tests, edits and code, and all of these.
COST = re.compile(r"^\| `(\w+)` \| *(\d*) \| *(\d*) \| *\d* \| *\d* \| (\d+) \|$", re.MULTILINE)
ALLOWED = re.compile(r"The longest chain to `ccnode` may take \*\*([\d,]+) seconds\*\*")
MORE = 1.05

# How far sums of rounded seconds may be apart.
ROUNDED = 10


def number(text):
    return int(text.replace(",", ""))


def read(path):
    with open(path, encoding="utf-8") as it:
        return it.read()


def crates_below():
    """For each crate of crates.txt those of this repository that it stands on."""
    lines = [it.partition("#")[0] for it in read("crates.txt").splitlines()]
    named = {name.strip(): used.split() for name, _, used in (it.partition(":") for it in lines if ":" in it)}
    return {crate: [it for it in used if it in named] for crate, used in named.items()}


def lines_of(crate):
    """How many lines of code, definitions and proofs a crate has."""
    count = 0
    for part in ("src", "specs", "proofs"):
        for folder, _, names in os.walk(f"crates/{crate}/{part}"):
            count += sum(read(f"{folder}/{it}").count("\n") for it in names if it.endswith((".rt", ".antt")))
    return count


def measured():
    """The seconds, those of its proofs, the chain and the lines of each crate of the page's table."""
    return {crate: tuple(map(number, row)) for crate, *row in ROW.findall(read(PAGE))}


def seconds_now(below, table):
    """The seconds that the proofs of each crate are reckoned to take now."""
    whole = sum(proof for _, proof, _, _ in table.values()) / max(sum(lines for *_, lines in table.values()), 1)
    reckoned = {}
    for crate in below:
        _, proof, _, lines = table.get(crate, (0, whole, 0, 1))
        reckoned[crate] = proof * lines_of(crate) / max(lines, 1)
    return reckoned


def in_order(below):
    """The crates, each behind those that it stands on."""
    return graphlib.TopologicalSorter(below).static_order()


def chains(below, seconds):
    """For each crate the crates of the longest chain that ends with it, lowest first, and the seconds of these."""
    found = {}
    for crate in in_order(below):
        crates, before = max((found[it] for it in below[crate]), key=lambda it: it[1], default=([], 0))
        found[crate] = [*crates, crate], before + seconds[crate]
    return found


def print_table(costs, below):
    rows = {crate: (int(proof or 0) + int(tests or 0), int(whole)) for crate, proof, tests, whole in COST.findall(costs) if crate in below}
    found = chains(below, {crate: proof for crate, (proof, _) in rows.items()})
    print("| Crate | Seconds | Its proof | With the longest chain below | Lines |\n|---|---|---|---|---|")
    for crate in below:
        proof, whole = rows[crate]
        print(f"| `{crate}` | {whole:,} | {proof:,} | {found[crate][1]:,} | {lines_of(crate):,} |")
    print(f"{sum(whole for _, whole in rows.values()):,} seconds in all")


def faults_of(table, below):
    """What isn't right in the table."""
    for crate in sorted(set(below) - set(table)):
        yield f"{PAGE} has no row of {crate}"
    for crate in sorted(set(table) - set(below)):
        yield f"{PAGE} has a row of {crate}, which isn't in crates.txt"
    if set(below) == set(table):
        found = chains(below, {crate: row[1] for crate, row in table.items()})
        for crate, (_, _, chain, _) in table.items():
            if abs(found[crate][1] - chain) > ROUNDED:
                yield f"{PAGE} says {chain} for the chain to {crate}: it is {found[crate][1]}"


def main(words):
    os.chdir(os.path.dirname(os.path.dirname(os.path.abspath(__file__))))
    below = crates_below()
    if words[:1] == ["--table"]:
        print_table(read(words[1]), below)
        return 0
    table, allowed = measured(), number(ALLOWED.search(read(PAGE))[1])
    crates, seconds = chains(below, seconds_now(below, table))[PROGRAM]
    print(f"the longest chain to {PROGRAM}: {seconds:.0f} seconds, {allowed} allowed: {', '.join(crates)}")
    faults = list(faults_of(table, below))
    if seconds > allowed * MORE:
        faults.append("the chain has grown by more than a twentieth: shorten it, or raise what docs/GATE.md allows")
    print(*faults, sep="\n", end="\n" if faults else "")
    return int(bool(faults))


if __name__ == "__main__":
    sys.exit(main(sys.argv[1:]))
