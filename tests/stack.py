#!/usr/bin/env python3
"""Run each command on 1,024 levels of each kind of nest, and find the least stack with which it answers rightly.

    stack.py PROGRAM KILOBYTES

One line is printed for each command and nest, with the least stack in KB (2^10 bytes, as of `ulimit -s`). A
command that answers wrongly with a stack of KILOBYTES has failed.
"""
import collections
import concurrent.futures
import functools
import os
import pathlib
import resource
import subprocess
import sys
import tempfile

from reading import chunked, embedded

LEVELS = 1024
# The greatest stack that is tried, and how closely the least one is found.
MOST, STEP = 16 * 1024, 16

# What opens and closes a level in bytes, the nest that is its deterministic encoding, and the same of a level in notation.
Nest = collections.namedtuple("Nest", "name opening closing shortest text_opening text_closing")
Case = collections.namedtuple("Case", "nest command inputs output status complaint", defaults=[0, b""])
NESTS = [
    Nest("arrays", "81", "", "arrays", "[", "]"),
    Nest("indefinite arrays", "9f", "ff", "arrays", "[_ ", "]"),
    Nest("maps by value", "a100", "", "maps by value", "{0: ", "}"),
    Nest("indefinite maps by value", "bf00", "ff", "maps by value", "{_ 0: ", "}"),
    Nest("maps by key", "a1", "00", "maps by key", "{", ": 0}"),
    Nest("indefinite maps by key", "bf", "00ff", "maps by key", "{_ ", ": 0}"),
    Nest("tags", "c1", "", "tags", "1(", ")"),
]
SECOND_KEYS = Nest("maps by second key", "a20000", "00", "maps by second key", "{0: 0, ", ": 0}")


def nested(nest, item="00"):
    """LEVELS levels around an item, which is the number 0 if no other is given."""
    return bytes.fromhex(nest.opening * LEVELS + item + nest.closing * LEVELS)


def noted(nest):
    return f"{nest.text_opening * LEVELS}0{nest.text_closing * LEVELS}".encode()


def around_faults(nest):
    """`check` of levels that are deterministic around an integer that isn't, and what refuses levels around no UTF-8."""
    place = len(bytes.fromhex(nest.opening)) * LEVELS
    if nest.shortest == nest.name:
        yield Case(f"{nest.name} around a long head", "check", [nested(nest, "1801")], f"offset {place}: long head\n".encode(), 1)
    for command in ["show", "normalise", "check"]:
        complaint = f"cborn: offset {place}: not UTF-8\n".encode()
        yield Case(f"{nest.name} around bad text", command, [nested(nest, "61ff")], b"", 2, complaint)


def cases():
    """Each command on each nest, and what it has to answer."""
    by_name = {nest.name: nest for nest in NESTS}
    for nest in NESTS:
        least = by_name[nest.shortest]
        wire, text, shortest = nested(nest), noted(nest), nested(least)
        for command, inputs, output in [
            ("show", [wire], text + b"\n"),
            ("show --to wire", [wire], wire),
            ("show --from notation", [text], text + b"\n"),
            ("show --from notation --to wire", [text], wire),
            ("normalise", [wire], shortest),
            ("normalise --to notation", [wire], noted(least) + b"\n"),
            ("normalise --from notation", [text], shortest),
            ("normalise --from notation-2 --to notation", [text], noted(least) + b"\n"),
            ("compare", [wire, wire], b"same\n"),
            ("compare --from-a notation --from-b notation-2", [text, text], b"same\n"),
        ]:
            yield Case(nest.name, command, inputs, output)
        defect = b"deterministic\n" if nest is least else b"offset 0: indefinite length\n"
        yield Case(nest.name, "check", [wire], defect, int(nest is not least))
        yield from around_faults(nest)
    yield from around_faults(SECOND_KEYS)
    wire = embedded(LEVELS, b"\x00")
    for name, opening in [("embedded items", b"<<"), ("embedded items behind a piece", b"''<<"), ("embedded items behind none", b"<<>><<")]:
        text = opening * LEVELS + b"0" + b">>" * LEVELS
        yield Case(name, "show --from notation --to wire", [text], wire)
        yield Case(name, "normalise --from notation", [text], wire)
        yield Case(name, "normalise --from notation-2 --to notation", [text], f"h'{wire[3:].hex()}'\n".encode())
    chunks = b"(_ ''<<" * LEVELS + b">>)" * LEVELS
    yield Case("embedded items in chunks", "show --from notation --to wire", [chunks], chunked(LEVELS))


def is_answered(program, case, kilobytes):
    """Whether a command answers rightly with so much stack."""
    limit_stack = functools.partial(resource.setrlimit, resource.RLIMIT_STACK, (kilobytes * 1024, kilobytes * 1024))
    with tempfile.TemporaryDirectory() as folder:
        names = [pathlib.Path(folder, f"input{index}") for index in range(len(case.inputs))]
        for name, content in zip(names, case.inputs):
            name.write_bytes(content)
        command = [program, *case.command.split(), "--depth", str(LEVELS), *map(str, names)]
        done = subprocess.run(command, capture_output=True, timeout=60, check=False, preexec_fn=limit_stack)
    return (done.stdout, done.stderr, done.returncode) == (case.output, case.complaint, case.status)


def least_stack(program, case):
    """The least stack with which a command answers rightly, in KB, or None where none that is tried is enough."""
    if not is_answered(program, case, MOST):
        return None
    low, high = 0, MOST
    while high - low > STEP:
        middle = (low + high) // 2 // STEP * STEP
        low, high = (low, middle) if is_answered(program, case, middle) else (middle, high)
    return high


def main():
    program, allowed = str(pathlib.Path(sys.argv[1]).resolve()), int(sys.argv[2])
    tried = list(cases())
    with concurrent.futures.ProcessPoolExecutor(os.cpu_count()) as pool:
        needs = list(pool.map(functools.partial(least_stack, program), tried))
    failed = 0
    for case, need in zip(tried, needs):
        is_within = need is not None and need <= allowed
        failed += not is_within
        print(f"{need or 'wrong':>6} KB  {case.command}: {case.nest}{'' if is_within else ', more than allowed'}")
    print(f"{len(tried) - failed} commands answered within {allowed} KB, {failed} failed")
    return 1 if failed or not tried else 0


if __name__ == "__main__":
    sys.exit(main())
