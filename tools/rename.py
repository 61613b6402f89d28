#!/usr/bin/env python3
"""Renames files, types and constants in a clean checkout of the repository, by a table.

    rename.py TABLE [FOLDER]

It moves the files with `git mv`, follows each name through code, clauses, proofs, edits, pages and tools, and lays `mod` and
`use` out again as `rt fmt` does. It prints each old name that is left in code, with its file, and each line of code or of a
page that got too long; the status is 1 where a name is left. Nothing is committed, and nothing is proved: run `rt fmt` and
the gate then. The table has sections of lines `CRATE: old>new old>new`: `[src]` source modules, with their folders of proofs;
`[specs]` files of definitions; `[proofs]` files of lemmas; `[words]` whole words, in the files whose new paths begin so, in
place of a crate."""
import os
import re
import subprocess
import sys
import textwrap
from pathlib import Path

PAGES = (".md", ".py", ".sh", ".txt", "Makefile")
WIDTH = 100

# Where a module is named: the crate, the tree and the name, or names, are groups. What a pattern hasn't is given beside it.
ANYWHERE = [
    (r"\bRattle\.(?P<crate>\w+)\.(?P<tree>specs|proofs)\.(?P<name>\w+)", ""),
    (r"\bRattle\.(?P<crate>\w+)\.specs\.(?:declared|contracts)\.(?P<name>\w+)", "src"),
    (r"\bRattle\.worked\.specs\.(?P<crate>cc_\w+)\.(?P<name>\w+)", "specs"),
    (r"\b(?P<crate>cc_\w+)::(?P<tree>specs|proofs)::(?P<name>\w+)", ""),
    (r"\b(?P<crate>\w+)/(?P<tree>src|specs|proofs)/(?:\w+/)*(?P<name>\w+)\.(?:rt|antt)\b", "")]
IN_CRATE = [
    (r"\bcrate::(?P<tree>specs|proofs)::(?P<name>\w+)", ""),
    (r"^file: (?P<tree>src|specs)/(?:\w+/)*(?P<name>\w+)", ""),
    (r"\bmod (?P<name>\w+);", "src"),
    (r"(?<!\w)(?P<name>[a-z]\w*)(?=::)", "src")]
IN_PAGES = [
    (r"(?<=\[)(?P<crate>cc_\w+)/(?P<name>\w+)(?=\]\()", "src"),
    (r"`(?:crates/)?(?P<crate>\w+)/specs`:? \(?(?P<name>(?:`?\w+`?(?:, )?)+)", "specs"),
    (r"`(?P<crate>\w+)/specs/\w+\.antt`, `(?P<name>\w+)\.antt`", "specs"),
    (r"`(?P<crate>\w+_tests)`[^()`]{0,20}\((?P<name>[^()]*)\)", "src")]
IN_WORKED_ROWS = [(r"\b(?P<crate>cc_\w+)/(?P<name>\w+)\b", "src"), (r"\b(?P<crate>cc_\w+): (?P<name>[\w ]+)$", "specs")]


def table():
    """For each section and each crate, or path, the new name of each old one."""
    sections = {}
    for line in Path(sys.argv[1]).read_text(encoding="utf-8").splitlines():
        if line.startswith("["):
            section = sections.setdefault(line[1:line.index("]")], {})
        elif line and line[0] != "#":
            crate, names = line.split(": ")
            section.setdefault(crate, {}).update(it.split(">") for it in names.split())
    return sections


TREES = table()
WORDS = TREES.pop("words")
FILES = {tree: {crate: {old.split("/")[-1]: new for old, new in names.items()} for crate, names in crates.items()}
         for tree, crates in TREES.items()}


def new_name(crate, tree, name):
    """What a file is called. Proofs stand in folders that are called as the source modules."""
    trees = (tree, "src") if tree == "proofs" else (tree,)
    return next((FILES[it][crate][name] for it in trees if name in FILES[it].get(crate, {})), name)


def follow(text, patterns, crate=""):
    """The text with the names in it that the patterns find."""
    def put(m):
        of, tree = m.groupdict().get("crate", crate), m.groupdict().get("tree", given)
        begin, end = m.start("name") - m.start(), m.end("name") - m.start()
        return m[0][:begin] + re.sub(r"\w+", lambda it: new_name(of, tree, it[0]), m["name"]) + m[0][end:]
    for pattern, given in patterns:
        text = re.sub(pattern, put, text, flags=re.M)
    return text


def in_words(text, path):
    """The text with the words of the table that stand in files of that path. An edit names its file before its words."""
    words = {old: new for prefix, names in WORDS.items() if path.startswith(prefix) for old, new in names.items()}
    if path.endswith(".edit"):
        pieces, crate = re.split(r"^(file: .*\n)", text, flags=re.M), "/".join(path.split("/")[:2])
        named = zip(["", *pieces[1::2]], pieces[::2])
        return "".join(file + in_words(rest, f"{crate}/{file[6:].strip()}") for file, rest in named)
    known = "|".join(re.escape(it) for it in sorted(words, key=len, reverse=True))
    return re.sub(rf"(?:(?<![\w'-])|(?=\.))(?:{known})(?![\w'-])", lambda m: words[m[0]], text) if words else text


def laid_out(run):
    """A run of `mod` or `use` statements in the order and the lines of `rt fmt`."""
    by_number = lambda it: re.sub(r"\d+", lambda m: "~" + m[0].zfill(9), it)
    rank = lambda it: (0 if it in ("crate", "self", "super") else 1 if it else 2, by_number(it))
    statement, said = r"((?:#\[[^\n]*\]\n)*(?:pub(?:\(crate\))? )?(?:use|mod) )([^;{]*)(\{[^;]*\})?;\n", []
    for head, path, names in re.findall(statement, run[0]):
        names = sorted((it.strip() for it in names[1:-1].split(",") if it.strip()), key=rank)
        line = f"{head}{path}{{{', '.join(names)}}};\n" if names else f"{head}{path};\n"
        if names and len(line.split("\n")[-2]) > WIDTH - 2:
            rows = textwrap.indent(textwrap.fill(", ".join(names) + ",", WIDTH - 5), "    ")
            line = f"{head}{path}{{\n{rows}\n}};\n"
        said.append(([rank(it) for it in path.split("::")], names, line))
    return "".join(line for _, _, line in sorted(said))


def renamed(path, text):
    """What a file says then."""
    crate = "worked" if path.startswith("tools/worked_rows/") else (path.split("/") + [""])[1]
    text = follow(text, ANYWHERE)
    text = follow(text, IN_CRATE, crate) if path.endswith((".rt", ".edit", "types.txt")) else text
    text = follow(text, [(r"\bmod (?P<name>\w+)", path.split("/")[-2])], crate) if path.endswith("/Lib.antt") else text
    text = follow(text, IN_PAGES) if path.endswith(PAGES) else text
    text = in_words(follow(text, IN_WORKED_ROWS) if path == "tools/worked_rows/build.py" else text, path)
    runs = r"^(?:(?:#\[[^\n]*\]\n)*(?:pub(?:\(crate\))? )?(?:use|mod) [^;]*;\n)+"
    return re.sub(runs, laid_out, text, flags=re.M) if path.endswith(".rt") else text


def left_in(path, text):
    """Where a path of modules or of files still has an old name, of this crate or behind the name of another."""
    for tree, crates in FILES.items():
        inner = rf"(?:\.|/|::)(?:{tree}(?:\.|/|::)|specs\.declared\.|specs\.contracts\.|proofs\.)(?:\w+/)*"
        for crate, names in crates.items():
            own = r"\bcrate::(?:\w+::)*|\bsuper::|\bmod |^file: \w+/" if path.startswith(f"crates/{crate}/") else r"\b$"
            yield from re.findall(rf"(?:\b{crate}{inner}|{own})(?:{'|'.join(names)})\b(?=\W)", text, re.M)


def move_all():
    def move(old, new):
        if old != new and os.path.exists(old):
            assert not os.path.exists(new), new
            subprocess.run(["git", "mv", old, new], check=True)
    for tree, crates in TREES.items():
        for crate, names in crates.items():
            for old, new in names.items():
                folder, end = os.path.dirname(f"crates/{crate}/{tree}/{old}"), ".rt" if tree == "src" else ".antt"
                move(f"crates/{crate}/{tree}/{old}{end}", f"{folder}/{new}{end}")
                if tree == "src":
                    move(f"crates/{crate}/proofs/{old}", f"{folder.replace('/src', '/proofs', 1)}/{new}")
    for path, words in WORDS.items():
        for folder, inner, _ in list(os.walk(f"crates/{path.split('/')[1]}/proofs")):
            for it in inner:
                move(f"{folder}/{it}", f"{folder}/{words.get(it, it)}")


def main():
    os.chdir(sys.argv[2] if len(sys.argv) > 2 else ".")
    move_all()
    listed = subprocess.run(["git", "ls-files"], check=True, stdout=subprocess.PIPE, text=True).stdout.splitlines()
    is_code, lefts = re.compile(r"crates/\w+/(src|specs|proofs|more-edits|must-fail)/").match, []
    for path in (it for it in listed if is_code(it) or it.endswith(PAGES) and "/data/" not in it):
        old = Path(path).read_text(encoding="utf-8")
        new = renamed(path, old)
        if new != old:
            Path(path).write_text(new, encoding="utf-8")
        limit = 120 if path.endswith(".md") else WIDTH
        for line in set(new.split("\n")) - set(old.split("\n")) if path.endswith((".rt", ".md")) else ():
            if len(line) > limit and not re.match(r" *(//|ghost|ensures|requires|#|\|)", line):
                print(f"{path}: {len(line)} columns: {line.strip()}")
        lefts += [f"{path}: an old name is left: {it}" for it in left_in(path, new)]
    sys.exit("\n".join(lefts) or 0)


main()
