#!/usr/bin/env python3
"""The languages that have a client library: what each needs, its unit tests, and its driver for conformance.py.

    languages.py

Run by itself it runs the unit tests of each language whose tool is installed, names the others as left out, and tests
examples/client.py and the check of histories.py. The status is 1 where a test fails.
"""
import pathlib
import shutil
import subprocess
import sys
from typing import List, NamedTuple

HERE = pathlib.Path(__file__).resolve().parent
# Built drivers stand there.
OUT = HERE / "out"


class Language(NamedTuple):
    """Commands are run in the language's folder; a language without `build` needs none."""

    name: str
    tool: str
    unit_tests: List[str]
    build: List[str]
    driver: List[str]

    @property
    def folder(self):
        return HERE / self.name


LANGUAGES = (
    Language(
        name="python",
        tool=sys.executable,
        unit_tests=["env", "PYTHONPATH=src", sys.executable, "-m", "unittest", "discover", "-t", ".", "-s", "tests"],
        build=[],
        driver=[sys.executable, "conformance.py"],
    ),
    Language(
        name="javascript",
        tool="node",
        unit_tests=["node", "--test"],
        build=[],
        driver=["node", "conformance.js"],
    ),
    Language(
        name="go",
        tool="go",
        unit_tests=["go", "test", "-count=1", "./..."],
        build=["go", "build", "-o", str(OUT / "conformance-go"), "./cmd/conformance"],
        driver=[str(OUT / "conformance-go")],
    ),
    Language(
        name="rust",
        tool="cargo",
        unit_tests=["cargo", "test", "--offline", "--quiet"],
        build=["cargo", "build", "--offline", "--quiet", "--release", "--example", "conformance"],
        driver=["target/release/examples/conformance"],
    ),
)


def installed():
    """The languages whose tool is there. The others are named."""
    for language in LANGUAGES:
        if shutil.which(language.tool):
            yield language
        else:
            print(f"LEFT OUT: {language.name}, since {language.tool} isn't installed", flush=True)


def passes(what, words, folder):
    """Whether these tests pass; what they print is shown where they don't."""
    tested = subprocess.run(words, cwd=folder, capture_output=True, text=True, timeout=600)
    if tested.returncode:
        print(tested.stdout + tested.stderr)
    print(f"{'NOT' if tested.returncode else 'ok '} unit tests of {what}", flush=True)
    return tested.returncode == 0


def main():
    verdicts = [passes(language.name, language.unit_tests, language.folder) for language in installed()]
    for what, test in (("the example client", "test_example"), ("the check of histories", "test_histories")):
        verdicts.append(passes(what, [sys.executable, "-m", "unittest", test], HERE))
    sys.exit(not all(verdicts))


if __name__ == "__main__":
    main()
