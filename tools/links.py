#!/usr/bin/env python3
"""Looks whether the pages lead where they say: each link to a file of this repository names one that is there, and where
the link's text is a name in backticks, or names after each other, the file has each of them. It prints what is missing;
the status is 1 then."""
import glob
import os
import re
import sys

LINK = re.compile(r"\[([^\]]*)\]\(([^)#\s]+)(?:#[^)\s]*)?\)")


def pages():
    return ["README.md", *sorted(glob.glob("docs/*.md")), "crates/README.md", *sorted(glob.glob("crates/*/README.md"))]


def missing_in(page):
    with open(page, encoding="utf-8") as it:
        text = it.read()
    for words, target in LINK.findall(text):
        if "://" in target:
            continue
        path = os.path.normpath(os.path.join(os.path.dirname(page), target))
        if not os.path.exists(path):
            yield f"{page}: {target} isn't there"
        elif os.path.isfile(path) and not path.endswith(".md"):
            with open(path, encoding="utf-8", errors="replace") as it:
                found = it.read()
            for name in re.findall(r"`([^`]+)`", words):
                last = name.split("::")[-1]
                if not re.search(rf"(?<![\w'-]){re.escape(last)}(?![\w'-])", found):
                    yield f"{page}: {path} has no {last}"


gone = [line for page in pages() for line in missing_in(page)]
print("\n".join(gone) if gone else f"the links of {len(pages())} pages lead where they say")
sys.exit(1 if gone else 0)
