#!/usr/bin/env python3
"""Count the instructions that the built program takes on small inputs of each kind: no more than instructions.txt allows.

    instructions.py PROGRAM [--write]    with --write the file is made anew from what is counted

Unlike time, that depends on the program and the input, and hardly on the machine. So it shows where a change makes a loop copy
what it kept in registers, or loses an inlining: nothing else does, since the answers stay as they were. Counted by valgrind, on
files of some 16 KB, over what an empty file takes: what the loader does differs from machine to machine. The bounds are of the
program as it is proved and built; an unproved build may differ by more.
"""
import base64
import concurrent.futures
import os
import pathlib
import random
import re
import shutil
import subprocess
import sys
import tempfile

from reading import head

BOUNDS = pathlib.Path(__file__).with_name("instructions.txt")
SIZE = 16_000
# what the C library does for a copy differs from machine to machine
SLACK = 1.1
HEADING = """\
# What the program may take on each input of tests/instructions.py, over an empty one: command, name, thousands of instructions.
# Made by: python3 tests/instructions.py PROGRAM --write
"""
FROM_TEXT = ("show --from notation --to wire", "normalise --from notation")
FROM_BYTES = ("show", "check", "normalise")


def filled(chance, make):
    """An array of about SIZE characters, each of whose items is made by itself."""
    items, size = [], 0
    while size < SIZE:
        items.append(make(chance))
        size += len(items[-1]) + 2
    return "[" + ", ".join(items) + "]"


def word(chance):
    return "".join(chance.choices("abcdefghijklmnopqrstuvwxyz", k=chance.randint(3, 9)))


def number(chance):
    return chance.getrandbits(chance.randint(1, 40))


def octets(chance, count):
    return bytes(chance.getrandbits(8) for _ in range(count))


# each form of notation, in items that hold little else
FORMS = {
    "integers": lambda c: str(number(c)),
    "negative integers": lambda c: str(-1 - number(c)),
    "bignums": lambda c: str(2**64 + c.getrandbits(100)),
    "hexadecimal integers": lambda c: hex(number(c)),
    "indicators": lambda c: c.choice(("[_ 1_0, 2_1]", "{_ 1: 2_3}", '"abc"_1', "h'0102'_0", "[_1 5, 6]", "7_2")),
    "texts": lambda c: f'"{word(c)}"',
    "texts with escapes": lambda c: f'"{word(c)}\\n{word(c)}\\u00e9"',
    "texts beyond ASCII": lambda c: '"%s"' % "".join(c.choices("éßµ😀abc", k=30)),
    "long texts": lambda c: f'"{word(c) * 300}"',
    "byte strings in quotes": lambda c: f"'{word(c)}'",
    "byte strings in base 16": lambda c: f"h'{octets(c, c.choice((4, 8, 16, 32))).hex()}'",
    "byte strings in base 64": lambda c: f"b64'{base64.b64encode(octets(c, 30)).decode()}'",
    "strings in pieces": lambda c: f"\"{word(c)}\" \"{word(c)}\", h'0102' '{word(c)}'",
    "strings in chunks": lambda c: f"(_ \"{word(c)}\", \"{word(c)}\"), (_ h'0102', h'0304')",
    "embedded items": lambda c: f"<<{number(c)}, {number(c)}>>",
    "nests of embedded items": lambda c: "<<" * 12 + '[1, "a"]' + ">>" * 12,
    "simple values": lambda c: c.choice(("true", "null", "undefined", "simple(59)")),
    "tags": lambda c: f"{c.choice((0, 1, 24, 32, 260, 5000))}({number(c)})",
    "arrays": lambda c: "[" * 20 + str(number(c)) + "]" * 20,
    "empty arrays and maps": lambda c: c.choice(("[]", "{}")),
    "maps": lambda c: "{%s}" % ", ".join(f'"{i}{word(c)}": {number(c)}' for i in range(12)),
    "comments": lambda c: f"/ {word(c)} / {number(c)}",
    "lines": lambda c: f"\n        {number(c)}",
}
# what a text of integers is refused for at its end, or at its start
ENDS = {
    "a float": ", 1.5]",
    "a missing bracket": "",
    "another bracket": "}",
    "a number too wide for its head": ", 256_0]",
    "chunks of two kinds": ", (_ 'a', \"b\")]",
    "a repeated key": ", {1: 1, 1: 2}]",
    "no simple value": ", simple(24)]",
}


def texts():
    """Each text, by its name."""
    made = {name: filled(random.Random(7), make) for name, make in FORMS.items()}
    made["a sequence"] = made["integers"][1:-1]
    ended = {f"integers, then {name}": made["integers"][:-1] + end for name, end in ENDS.items()}
    return {**made, **ended, "a bracket, then integers": "] " + made["integers"]}


def arrays():
    """Encoded items, each by its name."""
    chance = random.Random(7)
    integers = b"".join(head(0, number(chance), chance.choice((None, None, None, 8))) for _ in range(SIZE // 4))
    strings = b"".join(head(3, 6) + b"abcdef" for _ in range(SIZE // 7))
    keys = [head(0, 1000 + i) for i in range(SIZE // 4)]
    turned = b"".join(key + b"\0" for key in keys[::-1])
    small = b"\xa2\x02\x00\x01\x00"
    return {
        "encoded integers": head(4, SIZE // 4) + integers,
        "encoded small integers": head(4, SIZE) + b"\x01" * SIZE,
        "encoded texts": head(4, SIZE // 7) + strings,
        "encoded text in chunks": b"\x7f" + b"\x61a" * (SIZE // 2) + b"\xff",
        "encoded arrays": (b"\x81" * 100 + b"\0") * (SIZE // 101),
        "encoded arrays of indefinite length": (b"\x9f" * 50 + b"\0" + b"\xff" * 50) * (SIZE // 101),
        "encoded tags": b"\xc1\0" * (SIZE // 2),
        "encoded bignums": b"\xc2\x49\x01\0\0\0\0\0\0\0\0" * (SIZE // 11),
        "encoded map": head(5, len(keys)) + b"".join(key + b"\0" for key in keys),
        "encoded map, keys that fall": head(5, len(keys)) + turned,
        "encoded maps of two pairs": head(4, SIZE // 5) + small * (SIZE // 5),
        "encoded text that isn't UTF-8, last": head(4, SIZE) + b"\x01" * (SIZE - 1) + b"\x61\xff",
        "a cut head, last": head(4, SIZE) + b"\x01" * (SIZE - 1) + b"\x19",
        "a repeated key, last": head(4, SIZE) + b"\x01" * (SIZE - 1) + b"\xa2\0\0\0\0",
    }


def runs():
    """Each command, with the name and the content of what it reads."""
    of_texts = [(command, name, text.encode()) for command in FROM_TEXT for name, text in texts().items()]
    return of_texts + [(command, name, data) for command in FROM_BYTES for name, data in arrays().items()]


def counted(program, run):
    """How many thousand instructions a run takes."""
    command, _, data = run
    tool = ["valgrind", "--tool=cachegrind", "--cache-sim=no", "--cachegrind-out-file=/dev/null"]
    with tempfile.NamedTemporaryFile() as file:
        file.write(data)
        file.flush()
        # the environment stands on the stack, where the loader goes through it
        done = subprocess.run([*tool, program, *command.split(), file.name], capture_output=True, env={"PATH": os.environ["PATH"]}, check=False)
    refs = re.search(rb"I\s+refs:\s+([\d,]+)", done.stderr)
    if refs is None or done.returncode not in (0, 1, 2):
        sys.exit(f"{command}: {done.stderr.decode(errors='replace')}")
    return int(refs[1].replace(b",", b"")) // 1000


def main():
    if shutil.which("valgrind") is None:
        print("the instructions aren't counted: no valgrind")
        return 0
    program, those = os.path.abspath(sys.argv[1]), runs()
    commands = FROM_TEXT + FROM_BYTES
    with concurrent.futures.ThreadPoolExecutor(os.cpu_count()) as pool:
        empty = dict(zip(commands, pool.map(lambda command: counted(program, (command, "nothing", b"")), commands)))
        counts = list(pool.map(lambda run: counted(program, run) - empty[run[0]], those))
    if sys.argv[2:] == ["--write"]:
        rows = (f"{command} | {name} | {int(count * SLACK) + 1}\n" for (command, name, _), count in zip(those, counts))
        BOUNDS.write_text(HEADING + "".join(rows))
        return 0
    rows = (line.split(" | ") for line in BOUNDS.read_text().splitlines() if not line.startswith("#"))
    most, wrong = {(command, name): int(bound) for command, name, bound in rows}, 0
    for (command, name, _), count in zip(those, counts):
        if count > most.get((command, name), 0):
            wrong += 1
            print(f"{command}: {name}: {count} thousand instructions, at most {most.get((command, name), 0)}")
    print(f"{len(those)} runs, {wrong} with more instructions than their bounds")
    return wrong > 0


if __name__ == "__main__":
    sys.exit(main())
