#!/usr/bin/env python3
"""Fails where the source makes up an "out of memory": an `OutOfMemory` or `AllocError` that is written by hand.

It may be written in a `From`, and in the arm of a `match` whose pattern is one already. Each other place stands in
tests/made-up.txt with its reason; a place there that is gone has to be struck out. Tests (cborn_tests) aren't read.
"""
import collections
import pathlib
import re
import sys

LIST = pathlib.Path("tests/made-up.txt")
WORDS = ("OutOfMemory", "AllocError")
UNREAD = re.compile(r"""//[^\n]*|/\*.*?\*/|b?r(#*)".*?"\1|b?"(?:\\.|[^"\\])*"|b?'(?:\\[^']+|[^'\\])'""", re.S)
# each clause and each ghost item stands on one line
PROOF = re.compile(r"^ *(?:(?:pub )?ghost|requires|ensures)\b.*$|\buse [^;]*;", re.M)
TOKEN = re.compile(r"\w+|::|=>|==|!=|->|\|\||\S")


def is_written(tokens, at):
    """Whether the word there makes a value: it is no type, no pattern, no comparison, and no other name for one."""
    start = at
    while tokens[start - 1] == "::":
        start -= 2
    before, after = tokens[start - 1], tokens[at + 1]
    if after == ">" or before in (":", "<", "for", "->", "==", "!=") or after in ("==", "!="):
        return False
    end = at + 1
    while tokens[end] in (")", "|", "(", "::") or tokens[end].isidentifier() and tokens[end] not in ("if", "else"):
        end += 1
    if tokens[end] in ("=>", "=", "if"):
        return False
    while tokens[start - 1] in ("(", "return", "{") or tokens[start - 1].isidentifier():
        start -= 1
    if tokens[start - 1] != "=>":
        return True
    start -= 2
    while tokens[start] not in (",", "{", "}"):
        if tokens[start] in WORDS:
            return False
        start -= 1
    return True


def places(text):
    """Yields, for each value that is made up, the name of the function around it."""
    tokens, heads, head = ["", *TOKEN.findall(PROOF.sub("", UNREAD.sub(" 0 ", text))), ""], [], []
    for at, token in enumerate(tokens):
        inner = next((h for h in reversed(heads) if {"fn", "enum"} & set(h)), [])
        if token in WORDS and "enum" not in inner and not any({"impl", "From"} <= set(h) for h in heads) and is_written(tokens, at):
            yield inner[inner.index("fn") + 1] if inner else "-"
        if token == "{":
            heads.append(head)
        elif token == "}":
            heads.pop()
        head = [] if token in "{};" else [*head, token]


def try_itself():
    """Looks that each way to make one up is found, and nothing else."""
    made = ["return Err(AllocError);", "x.ok_or(AllocError)?", "match x { None => Err(E::OutOfMemory), Some(y) => Ok(y) }", "f(|| AllocError)",
            "match x { Err(_) => { g(E::OutOfMemory) } }", "Some(A::B(E::OutOfMemory))", "let x = E::OutOfMemory;", "if y { E::OutOfMemory } else { z }"]
    others = ["// AllocError\n", '"OutOfMemory"', "let x: Result<(), AllocError> = y;", "match x { Err(A::OutOfMemory) => Err(AllocError), _ => y }",
              "if x == E::OutOfMemory { y }", "if let Err(E::OutOfMemory) = x { y }", "match x { A(E::OutOfMemory) | B => y, C => z }", "let c = '\"'; g(|e: AllocError| y)"]
    for body in made + others:
        found = list(places("fn f() -> Result<(), AllocError>\n    ensures { result ≢ Err AllocError }\n{ %s }" % body))
        assert found == (["f"] if body in made else []), (body, found)
    assert not list(places("enum E { OutOfMemory, } impl From<AllocError> for E {\n ghost from_gives = { λ _ e. e ≡ OutOfMemory };\n fn from(_: AllocError) -> E { E::OutOfMemory } }"))


def main():
    try_itself()
    found = collections.Counter()
    for file in sorted(pathlib.Path("crates").glob("*/src/**/*.rt")):
        if not file.parts[1].endswith("_tests"):
            found.update(f"{file} {name}" for name in places(file.read_text(encoding="utf-8")))
    lines = [line.split(maxsplit=3) for line in LIST.read_text(encoding="utf-8").splitlines() if line.strip() and line[0] != "#"]
    known = {f"{file} {name}": int(count) for file, name, count, _reason in lines}
    wrong = [place for place in sorted({*found, *known}) if found[place] != known.get(place, 0)]
    for place in wrong:
        print(f"{place}: makes up an out of memory {found[place]} times, where {LIST} has {known.get(place, 0)}")
    return 1 if wrong else 0


if __name__ == "__main__":
    sys.exit(main())
