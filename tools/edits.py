#!/usr/bin/env python3
"""Tries every edit of these crates, those of the gate and those beside it: edits.py CRATE..; `all` stands for every crate.

`--standing` before them tries none, and tells of those that can't be made, since the text they change isn't there once.

It works in a copy of the repository. The prover judges each function apart, by the contracts of those it calls, so edits of
different functions are tried in one check: an edit is refused where an error stands in each function that it changes, or in
its proof. What isn't refused so is tried alone by `rt must-fail`. A line is printed for each edit that isn't refused, and
one for each crate; the status is 1 where an edit isn't refused. What `rt check` proved before isn't proved again."""
import collections
import glob
import os
import re
import shutil
import subprocess
import sys
import tempfile
import time

Function = collections.namedtuple("Function", "file first last name")
Edit = collections.namedtuple("Edit", "path changes functions")

BEGIN = re.compile(r"( *)(?:pub(?:\([a-z]+\))? )?(?:const )?fn (\w+)")
PLACE = re.compile(r"(?:note: )?(?:\./)?(\S+?):(\d+):\d+:")
# What says no more than that a proof names what the edit took away.
NAMES = re.compile(r"(?:note: )?(?:\./)?proofs/.*(?:has no field|is not in scope|has no `|was not admitted)")


def text_of(file):
    with open(file, encoding="utf-8") as it:
        return it.read()


def changes_of(path):
    """The changes of an edit: a file, its old text and its new text."""
    file, old, changes = "", "", []
    for line in text_of(path).split("\n"):
        word, _, rest = line.partition(": ")
        if word == "file":
            file = rest.strip()
        elif word == "old":
            old = rest
        elif line.startswith("new:"):
            changes.append((file, old, rest))
    return changes


def functions_of(text, file):
    """The functions of a file as `rt fmt` lays it out, each from its first line to its last."""
    lines = text.split("\n")
    for first, line in enumerate(lines):
        begin = BEGIN.match(line)
        if begin:
            is_end = re.compile(begin[1] + r"\}|" + begin[1] + r"\{\}").match
            last = next((it for it in range(first, len(lines)) if is_end(lines[it])), first)
            if re.search(r"[;}]$", line):
                last = first
            yield Function(file, first + 1, last + 1, begin[2])


def read_edit(folder, path):
    """An edit, and the functions that it changes: none where a change stands outside them all, or can't be made."""
    changes, functions = changes_of(path), set()
    for file, old, _ in changes:
        text = text_of(f"{folder}/{file}") if os.path.isfile(f"{folder}/{file}") else ""
        at = text[: text.find(old)].count("\n") + 1
        around = [it for it in functions_of(text, file) if it.first <= at <= it.last]
        if text.count(old) != 1 or not file.startswith("src/") or not around:
            return Edit(path, changes, frozenset())
        functions.add(max(around, key=lambda it: it.first))
    return Edit(path, changes, frozenset(functions))


def meet(edit, other):
    """Whether two edits can't be made at once: they change one function, or one writes what the other looks for."""
    finds = lambda one, two: any(old in new for _, _, new in one.changes for _, old, _ in two.changes)
    return bool(edit.functions & other.functions) or finds(edit, other) or finds(other, edit)


def groups_of(edits):
    """The edits in groups that can be made at once, each in as early a group as it can."""
    groups = []
    for edit in edits:
        group = next((it for it in groups if not any(meet(edit, other) for other in it)), None)
        if group is None:
            groups.append(group := [])
        group.append(edit)
    return groups


def is_blamed(function, said, proof=None):
    """Whether an error stands in the function or in its proof: in a file below `proof`, or where its module and its name lead."""
    module = re.escape(os.path.basename(function.file)[: -len(".rt")])
    proof = re.escape(proof) if proof else rf"proofs/(?:.*/)?{module}/(?:\w+/)?{function.name}/"
    for line in said.split("\n"):
        place = PLACE.match(line)
        if not place or NAMES.match(line):
            continue
        if place[1] == function.file and function.first <= int(place[2]) + 1 and int(place[2]) <= function.last:
            return True
        if ": error" in line and re.match(proof, place[1]):
            return True
    return False


def copy_kept(kept, to):
    """Lays what a check kept again: a check replaces a file of a proof and never writes into it, so a link will do."""
    shutil.rmtree(to, ignore_errors=True)
    link = lambda one, other: os.link(one, other) if one.endswith(".oantt") else shutil.copy2(one, other)
    shutil.copytree(kept, to, symlinks=True, copy_function=link)


def check(folder):
    ran = subprocess.run(["rt", "check"], cwd=folder, stdout=subprocess.PIPE, stderr=subprocess.STDOUT, errors="replace")
    return ran.returncode, ran.stdout


def write_texts(folder, texts):
    for file, text in texts.items():
        with open(f"{folder}/{file}", "w", encoding="utf-8") as it:
            it.write(text)


def try_together(folder, group):
    """Checks a crate with all edits of a group made. Those that aren't seen to be refused."""
    was = {file: text_of(f"{folder}/{file}") for edit in group for file, _, _ in edit.changes}
    texts = dict(was)
    for edit in group:
        for file, old, new in edit.changes:
            texts[file] = texts[file].replace(old, new)
    write_texts(folder, texts)
    status, said = check(folder)
    write_texts(folder, was)
    is_judged = status == 1 and "\nlogic=not-proved" in said and not re.search(r"\berror\[[\w-]+\]", said)
    return [it for it in group if not is_judged or not all(is_blamed(each, said) for each in it.functions)]


def try_alone(copy, crate, edits):
    """Tries edits one by one. What is said of those that aren't refused."""
    shutil.rmtree(f"{copy}/crates/{crate}/must-fail", ignore_errors=True)
    os.makedirs(f"{copy}/crates/{crate}/must-fail")
    for edit in edits:
        shutil.copy(edit.path, f"{copy}/crates/{crate}/must-fail")
    ran = subprocess.run(["rt", "must-fail", crate], cwd=copy, stdout=subprocess.PIPE, stderr=subprocess.STDOUT, errors="replace")
    lines = [it for it in ran.stdout.split("\n") if f"must-fail {crate}/" in it]
    bad = [it for it in lines if ": refused, as it must be" not in it]
    return bad if len(lines) == len(edits) else [*bad, ran.stdout[-900:]]


def paths_of(crate):
    """All edits of a crate, those of the gate and those beside it."""
    return sorted(glob.glob(f"crates/{crate}/must-fail/*.edit") + glob.glob(f"crates/{crate}/more-edits/*.edit"))


def is_standing(crate, path):
    """Whether each text that an edit changes stands once in its file, after the changes before it."""
    changes, texts = changes_of(path), {}
    for file, old, new in changes:
        place = f"crates/{crate}/{file}"
        if file not in texts and os.path.isfile(place):
            texts[file] = text_of(place)
        if texts.get(file, "").count(old) != 1:
            return False
        texts[file] = texts[file].replace(old, new)
    return bool(changes)


def look(crates):
    """Tells of the edits that can't be made. The status."""
    paths = [(crate, path) for crate in crates for path in paths_of(crate)]
    stale = [path for crate, path in paths if not is_standing(crate, path)]
    said = [f"{it}: what it changes doesn't stand once in its file" for it in stale]
    print(*said, f"{len(paths) - len(stale)} of {len(paths)} edits stand", sep="\n")
    return 1 if stale else 0


def try_crate(copy, crate):
    """Tries all edits of a crate. How many there are, and what is said of those that aren't refused."""
    folder, begun = f"{copy}/crates/{crate}", time.time()
    edits = [read_edit(folder, it) for it in paths_of(crate)]
    status, said = check(folder)
    if status:
        return [f"{crate} isn't proved as it stands: {said[-900:]}"]
    os.rename(f"{folder}/out/incremental", f"{folder}/out/kept")
    alone = [it for it in edits if not it.functions]
    for group in groups_of([it for it in edits if it.functions]):
        copy_kept(f"{folder}/out/kept", f"{folder}/out/incremental")
        alone += try_together(folder, group)
    copy_kept(f"{folder}/out/kept", f"{folder}/out/incremental")
    bad = try_alone(copy, crate, alone) if alone else []
    shutil.rmtree(f"{folder}/out/kept")
    count = f"{len(edits) - len(bad)} of {len(edits)} edits refused, {len(alone)} of them tried alone"
    print(*bad, f"{crate}: {count}, in {time.time() - begun:.0f} s", sep="\n", flush=True)
    return bad


def main(crates):
    os.chdir(os.path.dirname(os.path.dirname(os.path.abspath(__file__))))
    looks = crates[:1] == ["--standing"]
    crates = crates[1:] if looks else crates
    if not crates:
        sys.exit('say which: make edits CRATES="cc_views cc_wire", or CRATES=all')
    if crates == ["all"]:
        crates = sorted({it.split("/")[1] for it in glob.glob("crates/*/m*-*/*.edit")})
    if looks:
        return look(crates)
    with tempfile.TemporaryDirectory() as copy:
        for it in ("crates.txt", "HANDLES"):
            shutil.copy(it, copy)
        shutil.copytree("crates", f"{copy}/crates", symlinks=True)
        subprocess.run(["git", "init", "-q", copy], check=True)
        return 1 if any([try_crate(copy, it) for it in crates]) else 0


if __name__ == "__main__":
    sys.exit(main(sys.argv[1:]))
