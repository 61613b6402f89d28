#!/usr/bin/env python3
"""Computes which definitions a reader of docs/THEOREMS.md has to trust, and compares them with the page's own list.

It begins with the clauses of the functions that the page quotes, those named there and all `requires`, and goes on from
each definition to those that it cites, over the imports of the files that they stand in. Types that the code declares,
and those of the toolchain's library, are left out. It prints each file that is reached and isn't in the page's list, each
that is there and isn't reached, and a wrong count of lines; the status is 1 then. With --write the counts are put right."""
import os
import re
import sys

PAGE = "docs/THEOREMS.md"
LIST = "## What a reader has to trust"
NAME = r"[^\W\d][\w'-]*"
DEFINITION = re.compile(rf"^ *(?:pub )?(?:abbrev|unfoldable|record|data)(?: pub)? ({NAME})")
CLAUSE = re.compile(r"^\s*(?:ensures|requires)\*? *(\w*) *\{", re.MULTILINE)
COUNTS = re.compile(r"[\d,]+ lines of maps, sets and recursion on lists, apart from the code, of\nwhich [\d,]+ only")


def read(path):
    with open(path, encoding="utf-8") as it:
        return it.read()


def imports_in(text):
    """For each name, and each alias of a file, the file (crate, file) of this repository that it is of, and its name there."""
    names, aliases = {}, {}
    for found in re.finditer(r"use Rattle\.(\w+)\.specs\.(\w+)(?:\.\{([^}]*)\}| as (\w+))", text):
        crate, file, listed, alias = found.groups()
        if alias:
            aliases[alias] = (crate, file)
        for it in (listed or "").split(","):
            name, _, called = it.strip().partition(" as ")
            names[called or name] = (crate, file, name)
    return names, aliases


class Specs:
    """The definitions of all crates."""

    def __init__(self):
        self.bodies, self.names, self.aliases = {}, {}, {}
        for crate in os.listdir("crates"):
            folder = f"crates/{crate}/specs"
            for file in os.listdir(folder) if os.path.isdir(folder) else ():
                self.add(crate, file.removesuffix(".antt"), read(f"{folder}/{file}"))

    def add(self, crate, file, text):
        self.names[crate, file], self.aliases[crate, file] = imports_in(text)
        current = None
        for line in text.splitlines():
            found = DEFINITION.match(line)
            if found:
                current = self.bodies.setdefault((crate, file, found[1]), [])
            if current is not None and not line.lstrip().startswith("--"):
                current.append(line)

    def resolve(self, names, aliases, text):
        """The definitions that a text cites."""
        for alias, name in re.findall(rf"({NAME})\.({NAME})", text):
            if alias in aliases:
                yield (*aliases[alias], name)
        for name in re.findall(NAME, text):
            if name in names:
                yield names[name]

    def cited_by(self, definition):
        crate, file, _ = definition
        text = "\n".join(self.bodies[definition])
        names = dict(self.names[crate, file])
        names.update({name: (c, f, name) for c, f, name in self.bodies if (c, f) == (crate, file)})
        return self.resolve(names, self.aliases[crate, file], text)

    def reached_from(self, begun):
        """Each definition that is reached, with the one that cites it first."""
        reached, waiting = {}, [(it, "a quoted clause") for it in begun]
        while waiting:
            definition, by = waiting.pop()
            if definition in reached:
                continue
            if definition not in self.bodies:
                waiting += [(it, by) for it in self.handed_on(definition)]
                continue
            reached[definition] = by
            waiting += [(it, definition[2]) for it in self.cited_by(definition)]
        return reached

    def handed_on(self, definition):
        """What a file imports for others."""
        crate, file, name = definition
        found = self.names.get((crate, file), {}).get(name)
        return [found] if found and found != definition else []


def clauses_of(signature):
    """The clauses of a function with their names, requires among them under no name."""
    for found in CLAUSE.finditer(signature):
        depth, end = 1, found.end()
        while depth:
            depth += {"{": 1, "}": -1}.get(signature[end], 0)
            end += 1
        is_asked = signature[found.start():found.end()].lstrip().startswith("requires")
        yield "" if is_asked else found[1], signature[found.end():end - 1]


def functions_of(crate):
    """For each public function of a crate its clauses, and the imports of its file."""
    functions = {}
    for folder, _, files in os.walk(f"crates/{crate}/src"):
        for file in files:
            text = read(f"{folder}/{file}")
            for found in re.finditer(r"^( *)pub fn (\w+)", text, re.MULTILINE):
                end = re.search(rf"^{found[1]}\{{", text[found.start():], re.MULTILINE)
                signature = text[found.start():found.start() + end.start()] if end else ""
                functions.setdefault(found[2], []).append((list(clauses_of(signature)), imports_in(text)))
    return functions


def quoted(page):
    """The clauses that the page quotes: their texts, with the imports of their files."""
    functions, current = {}, []
    for block in re.findall(r"```text\n(.*?)```", page, re.DOTALL):
        for line in block.splitlines():
            words = re.findall(r"\w+", re.sub(r"\w+::", "", line))
            if words and os.path.isdir(f"crates/{words[0]}") and not line.startswith(" "):
                functions, current = functions_of(words[0]), []
            named = [it for word in words if word in functions for it in functions[word]]
            if named and not re.match(r"\s{20}", line):
                current = named
            for clauses, imports in current:
                wanted = {name for name, _ in clauses if name in words} or ({""} if not named else None)
                for name, text in clauses:
                    if not name or wanted is None or name in wanted:
                        yield text, imports


def listed(page):
    """The rows of the page's list: the files (crate, file) of each, and the lines that it counts."""
    for line in page[page.index(LIST):].splitlines():
        row = re.match(r"\|.*\|.*\| (.+) \| (\d+) \|$", line)
        if row:
            files = []
            for part in row[1].split(";"):
                crate, names = part.strip().strip("`").split("/specs`:")
                files += [(crate, name.strip()) for name in names.split(",")]
            yield line, files, int(row[2])


def lines_of(files):
    paths = [f"crates/{crate}/specs/{file}.antt" for crate, file in files]
    return [line for path in paths if os.path.isfile(path) for line in read(path).splitlines()]


def counted(page):
    """The page with its counts put right."""
    rows = list(listed(page))
    for line, files, _ in rows:
        page = page.replace(line, re.sub(r"\d+ \|$", f"{len(lines_of(files))} |", line))
    lines = [line for _, files, _ in rows for line in lines_of(files)]
    imports = sum(1 for line in lines if re.match(r"(pub )?use ", line))
    told = f"{len(lines):,} lines of maps, sets and recursion on lists, apart from the code, of\nwhich {imports} only"
    return COUNTS.sub(told, page)


def main(words):
    os.chdir(os.path.dirname(os.path.dirname(os.path.abspath(__file__))))
    page, specs, is_good = read(PAGE), Specs(), True
    begun = [it for text, imports in quoted(page) for it in specs.resolve(*imports, text)]
    reached = specs.reached_from(begun)
    there = {it for _, files, _ in listed(page) for it in files}
    for file in sorted({it[:2] for it in reached} - there):
        names = [f"{name} (by {by})" for (crate, of, name), by in sorted(reached.items()) if (crate, of) == file]
        print(f"missing: {file[0]}/specs/{file[1]}: {', '.join(names[:4])}")
        is_good = False
    for crate, file in sorted(there - {it[:2] for it in reached}):
        print(f"not reached: {crate}/specs/{file}")
        is_good = False
    if counted(page) != page:
        print("the counts of lines aren't those of the files")
        is_good = False
    if "--write" in words:
        with open(PAGE, "w", encoding="utf-8") as it:
            it.write(counted(page))
    print(f"{len(reached)} definitions in {len({it[:2] for it in reached})} files are reached")
    return 0 if is_good else 1


if __name__ == "__main__":
    sys.exit(main(sys.argv[1:]))
