#!/usr/bin/env python3
"""Tries one edit of each crate of which `rt ci` itself tries none: one_edit_each.py [CRATE..]

It runs after `rt ci` in the same tree, over the libraries that this left in crates/*/out/rlib. It asks the prover about one
function of each crate, the one that the edit of one_edit_each.txt changes, and about those that it calls, which takes seconds in
place of the crate's whole proof. An edit is refused where the prover doesn't prove the function, and an error stands in it or in
its proof that isn't only a name which the edit took away. A crate that has edits, but none in the list or in its must-fail/, is
told too. Its last line counts, as that of `rt ci` does; the status is 1 where an edit isn't refused."""
import concurrent.futures
import glob
import os
import re
import shutil
import subprocess
import sys
import tempfile
import time

import edits
from chain import crates_below

LIST = "tools/one_edit_each.txt"
ASKED = re.compile(r"^only=\d+ proved=\d+$", re.MULTILINE)


def listed():
    """For each crate of the list its edit and the function that this changes."""
    rows = [it.split() for it in edits.text_of(LIST).splitlines() if it and not it.startswith("#")]
    return {crate: (f"crates/{crate}/more-edits/{edit}.edit", function) for crate, edit, function in rows}


def left_out(rows):
    """The crates that have edits of which none is tried."""
    crates_with = lambda part: {it.split("/")[1] for it in glob.glob(f"crates/*/{part}/*.edit")}
    return sorted(crates_with("more-edits") - crates_with("must-fail") - set(rows))


def used_by(crate):
    """All that crates.txt says that a crate uses."""
    return re.search(rf"^{crate}:(.*)$", edits.text_of("crates.txt"), re.MULTILINE)[1].split()


def closure(crate, below):
    """The crates of this repository that a crate stands on."""
    found, left = set(), [*below[crate]]
    while left:
        it = left.pop()
        left += [] if it in found else below[it]
        found.add(it)
    return sorted(found)


def is_left_by_gate(crate):
    """Whether `rt ci` left a library of a crate: other commands write a stamp beside theirs, which may be of an earlier text."""
    return os.path.isfile(f"crates/{crate}/out/rlib/{crate}.rlib/format") and not os.path.exists(f"crates/{crate}/out/rlib/stamp")


def command(kit, crate, below, function):
    """The prover's words for one function of a crate."""
    rlib = lambda it: os.path.abspath(f"crates/{it}/out/rlib")
    kits = ["std", *(it for it in used_by(crate) if it not in below)]
    words = [f"{kit}/bin/rattle", "check", "--crate-name", crate, "src/lib.rt"]
    words += [word for it in kits for word in ("--extern", f"{it}={kit}/rlibs/{it}.rlib")]
    words += ["-L", f"dependency={kit}/rlibs"]
    words += [word for it in below[crate] for word in ("--extern", f"{it}={rlib(it)}/{it}.rlib")]
    words += [word for it in closure(crate, below) for word in ("-L", f"dependency={rlib(it)}")]
    words += ["--antt-project", f"{kit}/rattle/logic/antt-project.json", "--logic-built", f"{kit}/logic_built"]
    return [*words, "--jobs", "1", "--only", function]


def ask(words, crate, edit, folder):
    """What the prover says of an edited copy of a crate in that folder, and its status."""
    for part in ("src", "specs", "proofs"):
        if os.path.isdir(f"crates/{crate}/{part}"):
            shutil.copytree(f"crates/{crate}/{part}", f"{folder}/{part}")
    for file, old, new in edit.changes:
        edits.write_texts(folder, {file: edits.text_of(f"{folder}/{file}").replace(old, new)})
    ran = subprocess.run(words, cwd=folder, stdout=subprocess.PIPE, stderr=subprocess.STDOUT, errors="replace")
    return ran.stdout, ran.returncode


def fault_of(said, status, crate, function, changed):
    """What is wrong with what the prover said of an edited function: nothing where it refused it."""
    if status not in (0, 1) or not ASKED.search(said):
        return f"the prover came to no verdict: {said[-600:]}"
    if re.search(rf"^fn {crate}::{re.escape(function)}: proved$", said, re.MULTILINE):
        return "the function is still proved"
    if not edits.is_blamed(changed, said, "proofs/" + function.replace("::", "/") + "/"):
        return f"no error stands in the function or in its proof: {said[-600:]}"
    return ""


def try_edit(kit, below, crate, path, function):
    """What is wrong with an edit: nothing where the prover refuses it."""
    if not os.path.isfile(path):
        return "there is no such edit"
    lacking = [it for it in closure(crate, below) if not is_left_by_gate(it)]
    if lacking:
        return f"`rt ci` left no library of {', '.join(lacking)}: remove crates/*/out, and run `make test`"
    edit = edits.read_edit(f"crates/{crate}", path)
    if [it.name for it in edit.functions] != [function.split("::")[-1]]:
        return f"it doesn't change {function} alone"
    with tempfile.TemporaryDirectory() as folder:
        said, status = ask(command(kit, crate, below, function), crate, edit, folder)
    return fault_of(said, status, crate, function, *edit.functions)


def told(kit, below, crate, path, function):
    """Tries an edit, and tells what came of it. Whether it was refused."""
    begun = time.time()
    fault = try_edit(kit, below, crate, path, function)
    outcome = f"NOT REFUSED: {fault}" if fault else "refused"
    print(f"{crate}: {os.path.basename(path)[: -len('.edit')]}, {outcome}, {time.time() - begun:.0f} s", flush=True)
    return not fault


def main(names):
    os.chdir(os.path.dirname(os.path.dirname(os.path.abspath(__file__))))
    kit = os.path.dirname(subprocess.run(["rt", "doc"], check=True, stdout=subprocess.PIPE, text=True).stdout.strip())
    below, rows = crates_below(), listed()
    chosen = [it for it in rows if it in names or not names]
    with concurrent.futures.ThreadPoolExecutor(len(os.sched_getaffinity(0))) as pool:
        passed = sum(pool.map(lambda it: told(kit, below, it, *rows[it]), chosen))
    lost = [it for it in left_out(rows) if it in names or not names]
    print(*(f"{it}: none of its edits is in {LIST}" for it in lost), sep="\n", end="\n" if lost else "")
    failed = len(chosen) - passed + len(lost)
    print(f"{passed} passed, {failed} failed")
    return int(failed > 0)


if __name__ == "__main__":
    sys.exit(main(sys.argv[1:]))
