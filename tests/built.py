#!/usr/bin/env python3
"""Let what follows `rt ci` run what it has just proved and built, without proving all of it again.

`rt ci` leaves each library and the program in out/ without the mark by which `rt run` and `rt lib` know that nothing has
changed since. This script writes those marks. They are the checksums that these commands compare, so an edit in between
still has everything above it proved again. It writes none if a library has a mark already: an earlier build was put back
then, and libraries of two builds don't fit together.
"""
import os
import pathlib
import shutil
import sys

sys.path.insert(0, os.path.dirname(os.path.realpath(shutil.which("rt") or "rt")))


def main():
    try:
        import rtlib
    except ImportError:
        print("the kit's parts aren't next to its command rt: what rt ci built is proved again")
        return
    crates = rtlib.crates_below(os.getcwd())
    if any(os.path.exists(f"{crate.folder}/out/rlib/stamp") for crate in crates):
        print("an earlier build stands in out/: it is brought up to date")
        return
    for crate in crates:
        program = pathlib.Path(crate.folder, "out", crate.name)
        if os.path.isdir(crate.rlib):
            pathlib.Path(crate.folder, "out/rlib/stamp").write_text(crate.stamp(), encoding="utf-8")
        elif crate.is_program and program.is_file():
            # what rt ci runs the program with is a part of what these commands compare
            words = pathlib.Path(crate.folder, "args").read_text(encoding="utf-8")
            crate.said = {**crate.said, "args": words.splitlines()}
            program.with_name(f"{crate.name}.stamp").write_text(crate.stamp() + rtlib.sum_of(str(program)), encoding="utf-8")


if __name__ == "__main__":
    main()
