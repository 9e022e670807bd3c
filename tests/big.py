#!/usr/bin/env python3
"""Give the largest inputs that there may be, of 2^30 bytes, to the built program, and print how long each command takes.

    big.py PROGRAM [--into FILE] [--temporary FOLDER]

The inputs are in their deterministic encoding, so `normalise` and `show --to wire` have to write what they read, and `check`
to tell that it is deterministic. With one byte more each has to be refused as too long. A cell is seconds of wall time and the
peak memory in MB. With --into the table takes the place of what stands between `<!-- begin big -->` and `<!-- end big -->`.
"""
import argparse
import os
import pathlib
import subprocess
import sys
import tempfile

sys.path.append(str(pathlib.Path(__file__).resolve().parent.parent / "bench"))

import measuring
import tables
from run import Outcome

MOST = 1 << 30
BLOCK = bytes(place % 24 for place in range(1 << 20))
COMMANDS = ("normalise", "check", "show --to wire")
# the heads of an array and of a byte string of four bytes of length, which leave room for that length
INPUTS = {
    "integers one after another": b"",
    "one array of integers": b"\x9a" + (MOST - 5).to_bytes(4, "big"),
    "one byte string": b"\x5a" + (MOST - 5).to_bytes(4, "big"),
}
TOO_LONG = Outcome(b"", b"cborn: input too long\n", 2)


def write_input(front, path):
    """A front, and then small integers, 2^30 bytes in all."""
    with open(path, "wb") as file:
        file.write(front)
        while (left := MOST - file.tell()) > 0:
            file.write(BLOCK[:left])


def answers(program, source, folder):
    """Each command on an input: its name, what it took, and whether its answer is the right one."""
    sink, line = folder / "out", folder / "line"
    line.write_text("deterministic\n")
    for command in COMMANDS:
        wanted = measuring.digest(line if command == "check" else source)
        run = measuring.once([program, *command.split()], source, sink, limit=600)
        yield command, run, run.status == 0 and run.digest == wanted
        sink.unlink()


def refusals(program, source):
    """Each command on an input that is one byte longer, and whether it is refused for that."""
    os.truncate(source, MOST + 1)
    for command in COMMANDS:
        with open(source, "rb") as read:
            done = subprocess.run([program, *command.split()], stdin=read, capture_output=True, timeout=600, check=False)
        yield command, Outcome(done.stdout, done.stderr, done.returncode) == TOO_LONG


def main():
    words = argparse.ArgumentParser(description=__doc__, formatter_class=argparse.RawDescriptionHelpFormatter)
    words.add_argument("program", type=pathlib.Path)
    words.add_argument("--into", type=pathlib.Path)
    words.add_argument("--temporary", type=pathlib.Path)
    given = words.parse_args()
    program, rows, passed, wrong = str(given.program.resolve()), [], 0, []
    with tempfile.TemporaryDirectory(dir=given.temporary) as name:
        folder, source = pathlib.Path(name), pathlib.Path(name, "in")
        for kind, front in INPUTS.items():
            write_input(front, source)
            found = list(answers(program, source, folder))
            rows.append((kind, [f"{run.wall:.1f}/{tables.megabytes(run)}" for _, run, _ in found]))
            tried = [(command, is_right) for command, _, is_right in found]
            tried += [(f"{command}, one byte more", is_right) for command, is_right in refusals(program, source)]
            wrong += [f"{kind}: {command}" for command, is_right in tried if not is_right]
            passed += sum(is_right for _, is_right in tried)
    lines = tables.table("s / MB of memory", [f"`cborn {command}`" for command in COMMANDS], rows)
    print("\n".join(lines))
    for line in wrong:
        print(f"wrong: {line}")
    print(f"{passed} answers to 2^30 bytes and to one more passed, {len(wrong)} failed")
    if given.into and not wrong:
        tables.put_into(given.into, "big", lines)
    return 1 if wrong else 0


if __name__ == "__main__":
    sys.exit(main())
