#!/usr/bin/env python3
"""Tries programs that must not compile: a batch in flight, or one that is durable and whose outputs are owed, that is
dropped, used twice, copied, cloned, taken apart or made by hand; a refusal that no intake told, or that is told twice. Each
has to be refused at its own line, for the reason that stands beside it, and a program without any of them has to compile. It proves nothing. Each program is compiled over
a copy of the crates' text in a new folder, which is removed again."""

import os
import re
import shutil
import subprocess
import sys
import tempfile

HEAD = """//! Programs that must not compile.
#![tactic(auto)]

use cc_intake::Refused;
use cc_journal::{Batch, Flight, Landed};
use cc_messages::Refusal;
use std::snapshot::Snapshot;

"""

MAIN = """
fn main(rt: HostRuntime) {
    let _ = rt;
}
"""

# What a compiler's pass refuses is told only where the pass before it refused nothing: each group is a run of its own.
GROUPS = [
    [
        ("pub fn dropped_landed(landed: Landed) { let _landed = landed; }", "linear-value-let-go"),
        ("pub fn dropped_flight(flight: Flight) { let _flight = flight; }", "linear-value-let-go"),
        ("pub fn passed_over_landed(_landed: Landed) {}", "linear-value-let-go"),
        ("pub fn passed_over_flight(_flight: Flight) {}", "linear-value-let-go"),
    ],
    [
        ("pub fn landed_twice(landed: Landed) -> (Landed, Landed) { (landed, landed) }", "borrow-e0382"),
        ("pub fn flight_twice(flight: Flight) -> (Flight, Flight) { (flight, flight) }", "borrow-e0382"),
        ("pub fn refused_twice(refused: Refused) -> (Refused, Refused) { (refused, refused) }", "borrow-e0382"),
    ],
    [
        ("pub fn copied_landed(landed: &Landed) -> Landed { *landed }", "move-out-of-place"),
        ("pub fn copied_flight(flight: &Flight) -> Flight { *flight }", "move-out-of-place"),
        ("pub fn cloned_landed(landed: &Landed) -> Landed { landed.clone() }", "unsupported-method"),
        ("pub fn cloned_flight(flight: &Flight) -> Flight { flight.clone() }", "unsupported-method"),
        ("pub fn forgotten_landed(landed: Landed) { std::mem::forget(landed) }", "unsatisfied-bound"),
        ("pub fn forgotten_flight(flight: Flight) { std::mem::forget(flight) }", "unsatisfied-bound"),
        ("pub fn opened_landed(landed: Landed) -> Snapshot<Batch> { landed.batch }", "private-field"),
        ("pub fn opened_flight(flight: Flight) -> Snapshot<Batch> { flight.batch }", "private-field"),
        ("pub fn made_landed(batch: Snapshot<Batch>) -> Landed { Landed { batch } }", "private-field"),
        ("pub fn made_flight(batch: Snapshot<Batch>) -> Flight { Flight { batch, size: 0 } }", "private-field"),
        ("pub fn copied_refused(refused: &Refused) -> Refused { *refused }", "move-out-of-place"),
        ("pub fn cloned_refused(refused: &Refused) -> Refused { refused.clone() }", "unsupported-method"),
        ("pub fn made_refused(why: Refusal) -> Refused { Refused { why, accepted: 0 } }", "missing-field"),
    ],
    # this one compiles
    [
        ("pub fn handed_on_landed(landed: Landed) -> Landed { landed }", None),
        ("pub fn handed_on_flight(flight: Flight) -> Flight { flight }", None),
        ("pub fn dropped_batch(batch: Batch) { let _batch = batch; }", None),
    ],
]

ERROR = re.compile(r"^src/main\.rt:(\d+):\d+: error\[([a-z0-9-]+)\]")


def repository_at(folder):
    """A repository of the crates' text and one program more."""
    for name in os.listdir("crates"):
        for part in ("src", "specs", "proofs"):
            text = os.path.join("crates", name, part)
            if os.path.isdir(text):
                shutil.copytree(text, os.path.join(folder, text))
    shutil.copy("HANDLES", folder)
    with open("crates.txt") as crates:
        listed = crates.read()
    with open(os.path.join(folder, "crates.txt"), "w") as crates:
        crates.write(listed + "\ntried: cc_messages cc_intake cc_journal\n")
    tried = os.path.join(folder, "crates", "tried")
    os.makedirs(os.path.join(tried, "src"))
    return tried


def errors_of(tried, programs):
    """The lines that are refused, each with its reasons, and all that was said."""
    lines = [program for program, _ in programs]
    with open(os.path.join(tried, "src", "main.rt"), "w") as text:
        text.write(HEAD + "\n".join(lines) + "\n" + MAIN)
    told = subprocess.run(["rt", "try"], cwd=tried, capture_output=True, text=True)
    said = told.stdout + told.stderr
    refused = {}
    for line in said.splitlines():
        found = ERROR.match(line)
        if found:
            refused.setdefault(int(found.group(1)), set()).add(found.group(2))
    return refused, said, told.returncode


def tried_group(tried, programs):
    """How many of the programs weren't refused as they have to be."""
    refused, said, status = errors_of(tried, programs)
    first = HEAD.count("\n") + 1
    wrong = 0
    for line, (program, reason) in enumerate(programs, first):
        reasons = refused.pop(line, set())
        if reasons == ({reason} if reason else set()):
            print(f"{reason or 'compiles'}: {program}")
        else:
            wrong += 1
            print(f"WRONG, {sorted(reasons) or 'not refused'} for {reason or 'nothing'}: {program}")
    compiles = all(reason is None for _, reason in programs)
    if refused or (status == 0) != compiles:
        wrong += 1
        print(said)
    return wrong


def main():
    os.chdir(os.path.dirname(os.path.dirname(os.path.abspath(__file__))))
    with tempfile.TemporaryDirectory() as folder:
        tried = repository_at(folder)
        wrong = sum(tried_group(tried, programs) for programs in GROUPS)
    count = sum(len(programs) for programs in GROUPS)
    print(f"{count} programs, {wrong} not as they have to be")
    sys.exit(1 if wrong else 0)


main()
