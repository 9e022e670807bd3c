#!/usr/bin/env python3
"""Compile each example in C of docs/LIBRARY.md as it stands, with the sanitizers for addresses, leaks and undefined
behaviour, and run it.

    examples.py FOLDER

FOLDER has libcborn.a. Each example prints what the page says below it, and what RFC 8949 makes of the input. Given another
input, a map with a duplicate key, each prints the fault or shows the map. An example that leaks memory, or reads past an
end, ends with another status. $CC or cc is gcc or clang.
"""
import itertools
import pathlib
import subprocess
import sys
import tempfile
import textwrap

import shared

TOP = pathlib.Path(__file__).resolve().parent.parent
FLAGS = ["-std=c11", "-g", "-O1", "-Wall", "-Wextra", "-Werror", "-fsanitize=address,undefined", "-fno-sanitize-recover=all"]
LOOSE, TWICE = "0x98, 0x02, 0x18, 0x01, 0x58, 0x01, 0x61", "0xa2, 0x01, 0x00, 0xc2, 0x41, 0x01, 0x00"
FAULT = b"offset 3: duplicate key\n"
LONG_HEAD = b"""\
offset 0: long head
  path  item 0
  bytes >98< 02 18 01 58 01 61
  why   the head 98 02 holds 2, and the shortest that does is 82
"""
KEY_TWICE = b"""\
offset 3: duplicate key
  path  item 0 {key #1}
  bytes a2 01 00 >c2< 41 01 00
  why   the key 2(h'01') is the same as the key at offset 1 of this map
"""
# what each writes and its status, for its own input and for the map; the duplicate key is a validity error, which notation shows
WANTED = {
    "A call": ((bytes.fromhex("82014161"), b"", 0), (b"", FAULT, 2)),
    "Notation": ((b"[_0 1_0, h'61'_0]\n", b"", 0), (b"{1: 0, 2(h'01'): 0}\n", b"", 0)),
    "The same items": ((b"same\n", b"", 0), (b"", b"first: " + FAULT, 2)),
    "Exactly one item": ((b"", b"offset 7: more than one item\n", 2), (b"", FAULT, 2)),
    "Explanations": ((LONG_HEAD, b"", 1), (KEY_TWICE, b"", 1)),
}


def examples():
    """Each block of code in C, and the heading that it stands below."""
    heading, lines = "", (TOP / "docs/LIBRARY.md").read_text().splitlines()
    for is_code, group in itertools.groupby(lines, lambda line: not line or line.startswith("    ")):
        block = list(group)
        if is_code and textwrap.dedent("\n".join(block)).strip().startswith("#include"):
            yield heading, textwrap.dedent("\n".join(block))
        heading = next((line[3:] for line in reversed(block) if line.startswith("## ")), heading)


def ran(text, build, folder):
    """What an example writes, and its status."""
    source = pathlib.Path(folder, "example.c")
    source.write_text(text)
    program = shared.compiled(f"{folder}/example", *FLAGS, f"-I{TOP}/include", source, f"{build}/libcborn.a")
    done = subprocess.run([program], capture_output=True, check=False)
    return done.stdout, done.stderr, done.returncode


def wrong_of(heading, text, build, folder):
    if text.count(LOOSE) != 1:
        yield f"{heading}: the input isn't there to be changed"
    texts = {heading: text, f"{heading}, with a duplicate key": text.replace(LOOSE, TWICE)}
    for (name, tried), wanted in zip(texts.items(), WANTED[heading]):
        outcome = ran(tried, build, folder)
        if outcome != wanted:
            yield f"{name}: {outcome}"


def main():
    build = str(pathlib.Path(sys.argv[1]).resolve())
    found, wrong = dict(examples()), []
    if set(found) != set(WANTED):
        wrong.append(f"the examples of the page stand below {sorted(found)}, and not below {sorted(WANTED)}")
    with tempfile.TemporaryDirectory() as folder:
        for heading in sorted(set(found) & set(WANTED)):
            wrong += wrong_of(heading, found[heading], build, folder)
    print(*wrong, f"{len(found)} examples in C ran under the sanitizers; {len(wrong)} failed", sep="\n")
    return 1 if wrong or not found else 0


if __name__ == "__main__":
    sys.exit(main())
