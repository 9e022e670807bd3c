#!/usr/bin/env python3
"""Fails where a source cites what serves another crate's proofs alone, or leaves the words of docs/ARCHITECTURE.md.

Contracts (src/) and definitions (specs/) may cite the definitions of crates below, and the devices that these share
(specs/shared/), but neither their proofs nor their other devices (specs/devices/). Proofs may cite all of them.

A word in italics under "Words" is part of a name somewhere in crates/. A word in backquotes after "never" is part of no name
and no comment there, but in cborn_c for those that C may have.
"""
import pathlib
import re
import sys

CITED = re.compile(r"Rattle\.(cborn_\w+)\.(?:proofs|specs\.devices)\b[\w.]*")
NAME = re.compile(r"[A-Za-z_]\w*")
PART = re.compile(r"[A-Z]+(?![a-z])|[A-Z]?[a-z]+")
NEVER = re.compile(r"\(never ((?:`\w+`(?:, )?)+)((?:, but in C)?)\)")
# what isn't read for words: texts that a program prints, the prover's word for a fact about a variable, what is told apart
UNREAD = re.compile(r'b?"(?:\\.|[^"\\])*"|\btold(?:-| apart)')


def read(*patterns):
    """The crate and the text of each file below crates/, in order."""
    for file in sorted(file for pattern in patterns for file in pathlib.Path("crates").glob(pattern)):
        if file.parts[2] != "out":
            yield file, file.parts[1], file.read_text(encoding="utf-8")


def strays():
    """The citations of what serves the proofs of another crate alone."""
    for file, crate, text in read("*/src/**/*.rt", "*/specs/**/*.antt"):
        for number, line in enumerate(text.splitlines(), 1):
            for cited in CITED.finditer(line):
                if cited[1] != crate:
                    yield f"{file}:{number}: cites {cited[0]}, which serves the proofs of {cited[1]} alone"


def parts(text):
    """The words of which the names and the comments of a file are made, each with the number of its line."""
    for number, line in enumerate(UNREAD.sub('""', text).splitlines(), 1):
        for part in PART.findall(" ".join(NAME.findall(line))):
            yield part.lower(), number


def misused():
    """The words that are never used and are, and those in italics that aren't."""
    page = pathlib.Path("docs/ARCHITECTURE.md").read_text(encoding="utf-8")
    section = page.partition("\n## Words\n")[2].partition("\n## ")[0]
    unused = {word.lower() for word in re.findall(r"(?<!\*)\*(\w+)\*(?!\*)", section)}
    never = {name: bool(in_c) for names, in_c in NEVER.findall(section) for name in re.findall(r"\w+", names)}
    if not unused or not never:
        yield 'docs/ARCHITECTURE.md has no words under "Words"'
        return
    for file, crate, text in read("*/*/**/*.rt", "*/*/**/*.antt"):
        for part, line in parts(text):
            unused.discard(part)
            if part in never and not (never[part] and crate == "cborn_c"):
                yield f"{file}:{line}: {part} is a word that is never used here"
    yield from (f"docs/ARCHITECTURE.md: {word} is in no name" for word in sorted(unused))


def main():
    assert [part for part, _ in parts('let IsOpenAt = begun_by("told"); // after')] == "let is open at begun by after".split()
    wrong = [*strays(), *misused()]
    print(*wrong, sep="\n", end="\n" if wrong else "")
    return 1 if wrong else 0


if __name__ == "__main__":
    sys.exit(main())
