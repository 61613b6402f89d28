#!/usr/bin/env python3
"""build.py FOLDER: writes a crate `worked` into FOLDER: the definitions that the rows need, and the types that they are
about, of the crates of this repository, over finite maps that compute in place of std's; and the rows beside this file.

Of a file of specs/ the definitions are taken, and no law and no proof; of a file of src/ the structs and enums, and no
function. A type that keeps a value in another form, with room or in an order, is that value alone here (types.txt,
view.txt). Rows of a crate that isn't there are left out, and named."""
import os, re, sys

here = os.path.dirname(os.path.abspath(__file__))
crates = os.path.join(here, "..", "..", "crates")

TYPES = """cc_views/value cc_views/row cc_changes/fraction cc_messages/command cc_messages/message cc_messages/event
    cc_messages/answer cc_messages/output cc_messages/refusal cc_wire/fault cc_ops/pending_operation cc_ops/stage
    cc_outbox/kept_answer cc_site/site cc_node/made cc_node/opening cc_node_state/layout"""

SPECS = """cc_views: NatSets Rows Merge Limits Tables
    cc_changes: ChangeSets ChangeLaws Need
    cc_objects: Objects
    cc_messages: Limits Messages Ranges Refusals Shares
    cc_wire: Readers Spellings Messages Answers Commands Events
    cc_links: Links
    cc_sessions: Sessions
    cc_outbox: Outbox OutboxLaws Rows
    cc_churn: Churn Refusals
    cc_ops: Commands WaitingAsks Rounds Ops Stages Refusals
    cc_site: Sides Moments
    cc_node: Core Refusals Node OneAtATime Rounds Openings Writes Lawful
    cc_node_state: Layouts States Sides Good
    cc_laws: Shown Orders Written Histories Lives Clusters Runs"""


def read(*path):
    with open(os.path.join(*path), encoding="utf-8") as file:
        return file.read()


def write(text, *path):
    os.makedirs(os.path.join(*path[:-1]), exist_ok=True)
    with open(os.path.join(*path), "w", encoding="utf-8") as file:
        file.write(text)


def renamed(text):
    """The crate's own names in place of those of the product's crates, and its maps in place of std's."""
    text = re.sub(r"Rattle\.std\.specs\.(FinMap|FinSet)\b(?!\.Entries)", r"Rattle.worked.specs.\1", text)
    text = re.sub(r"Rattle\.cc_\w+\.specs\.(declared|contracts)\b", r"Rattle.worked.specs.\1", text)
    return re.sub(r"Rattle\.(cc_\w+)\.specs\b", r"Rattle.worked.specs.\1", text)


def definitions(text):
    """An item begins in column 1: an import, a definition by its keyword and then its clauses, a law by its name and a
    colon."""
    lines, kept = [], False
    for line in text.splitlines():
        if line and not line.startswith(("--", " ", "}")):
            words = line.split()
            if re.match(r"((pub )?use|infix[lr]?|abbrev|unfoldable|(pub )?record|(pub )?data) ", line):
                kept = True
            elif words[0] in ("pub", "module") or words[1:2] == [":"]:
                kept = False
        if kept and line and not line.startswith("--"):
            lines.append(line)
    return renamed("\n".join(lines) + "\n")


def names_of(text):
    """The names that a file of definitions has, those of constructors among them."""
    return set(re.findall(r"^ *(?:(?:abbrev|unfoldable|pub|record|data) )*([^ ]+)", text, re.M))


def pruned(text, words):
    """Without imports of what was left behind."""
    def line(match):
        there, names = words.get(match[1]), match[2]
        if there is None or names is None:
            return "" if there is None else match[0]
        kept = [name for name in names.split(", ") if name.split(" ")[0] in there]
        return f"use Rattle.worked.specs.{match[1]}.{{{', '.join(kept)}}}\n" if kept else ""
    return re.sub(r"^use Rattle\.worked\.specs\.(cc_\w+\.\w+)(?: as \w+|\.\{(.*)\})\n", line, text, flags=re.M)


def types_of(text):
    """The structs and enums of a file, each of which may be let go and is nothing else."""
    items = re.findall(r"^(?:pub )?(?:struct|enum) .*?^}$", text, re.M | re.S)
    return re.sub(r"^ *//.*\n", "", "".join(f"#[derive(Drop)]\n{item}\n\n" for item in items), flags=re.M)


def write_types(folder):
    parts = {}
    for path in TYPES.split():
        crate, module = path.split("/")
        parts[module] = types_of(read(crates, crate, "src", module + ".rt"))
    for module in ("types", "view"):
        parts[module] = read(here, module + ".txt")
    places = {name: module for module, text in parts.items()
              for name in re.findall(r"^pub (?:struct|enum) (\w+)", text, re.M)}
    for module, text in parts.items():
        lines = "".join(f"use crate::{place}::{name};\n" for name, place in places.items()
                        if place != module and re.search(rf"\b{name}\b", text))
        write(text if module in ("types", "view") else lines + text, folder, "src", module + ".rt")
    lines = "".join(f"mod {module};\n" for module in parts)
    write("//! Definitions, to be tried on examples.\n#![tactic(auto)]\n\n" + lines, folder, "src", "lib.rt")


def read_specs():
    specs = {}
    for line in SPECS.splitlines():
        crate, modules = line.strip().split(": ")
        if os.path.isdir(os.path.join(crates, crate)):
            for module in modules.split():
                specs[f"{crate}.{module}"] = definitions(read(crates, crate, "specs", module + ".antt"))
    return specs


def read_rows(specs):
    rows = {}
    for file in sorted(os.listdir(os.path.join(here, "rows"))):
        text = read(here, "rows", file)
        missing = set(re.findall(r"Rattle\.worked\.specs\.(cc_\w+\.\w+)", text)) - set(specs)
        if missing:
            print(f"left out: {file}, for want of {', '.join(sorted(missing))}", file=sys.stderr)
        else:
            rows[file.removesuffix(".txt")] = text
    return rows


def write_specs(folder):
    specs = read_specs()
    words = {module: names_of(text) for module, text in specs.items()}
    for module, text in specs.items():
        crate, name = module.split(".")
        write(pruned(text, words), folder, "specs", crate, name + ".antt")
    inner = {}
    for module in specs:
        inner.setdefault(module.split(".")[0], []).append(module.split(".")[1])
    files = {crate: "".join(f"pub mod {name}\n" for name in names) for crate, names in inner.items()}
    files.update({name: read(here, name + ".txt") for name in ("FinMap", "FinSet")})
    files.update(read_rows(specs))
    files["Lib"] = "".join(f"pub mod {name}\n" for name in files)
    for name, text in files.items():
        write(text, folder, "specs", name + ".antt")


write_types(sys.argv[1])
write_specs(sys.argv[1])
