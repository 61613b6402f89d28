#!/usr/bin/env python3
"""Copies pages of this repository into one folder: pages.py FOLDER PAGE.., as `make install` does.

A link to another of these pages leads to its copy. Of a link to any other file of the repository only the words are left.
"""
import os
import pathlib
import re
import shutil
import sys

LINK = re.compile(r"!?\[([^\]]*)\]\(([^)#\s]+)(#[^)\s]*)?\)")


def copied(page, pages):
    """A page's text, whose links lead to copies that stand beside it."""

    def link(found):
        words, target, place = found.groups()
        path = os.path.normpath(os.path.join(os.path.dirname(page), target))
        if path in pages:
            return found.group(0).replace(f"({target}", f"({os.path.basename(path)}")
        return found.group(0) if "://" in target else words

    return LINK.sub(link, pathlib.Path(page).read_text(encoding="utf-8"))


def main(folder, pages):
    for page in pages:
        path = pathlib.Path(folder) / os.path.basename(page)
        if page.endswith(".md"):
            path.write_text(copied(page, pages), encoding="utf-8")
        else:
            shutil.copyfile(page, path)
        path.chmod(0o644)


if __name__ == "__main__":
    if len(sys.argv) < 3:
        sys.exit(__doc__)
    main(sys.argv[1], [os.path.normpath(page) for page in sys.argv[2:]])
