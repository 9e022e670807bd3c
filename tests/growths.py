#!/usr/bin/env python3
"""Refuse each growth in turn: run something once for each of its requests for memory, with that one refused.

    growths.py PROGRAM [TABLE..]    each command line of the tables of this folder, and not those of forms/
    growths.py --tests TESTS        each test of a crate's built tests, crates/NAME/out/NAME_tests, but for those of fronts,
                                    which make one call for thousands of inputs that other tests have as a whole

A command line has to answer as it does with enough memory, or with out of memory: status 4, nothing on standard output,
and one line on standard error. An explanation may end with a line that says out of memory, after an unchanged first
line. If the growth was for the path of a file that was to be opened, the line is that this file can't be read, and with -o
it may be that the write failed. A test has to pass with enough memory. With a growth refused it has to pass too, or to fail
by out of memory: by the error that a call answered, and not by an answer that differs. trouble.c, which is compiled by $CC
or cc, refuses, and serve.c begins the runs.
"""
import collections
import itertools
import os
import re
import subprocess
import sys

import shared
from failures import Part, files_of, joined, parts_of, which_input
from run import Outcome, cases, listed

WANT = re.compile(rb"AllocError|AllocFailed|OutOfMemory|[Oo]ut of memory")
# a test that stops: by an error that it returns, or by a failed assertion, which names the answer
FAILED, ABORTED = 101, -6

# how many runs a test's growths are shared among, since a test may have hundreds of thousands
SHARES = os.cpu_count() or 1

# the outcome of a run, how many bytes the request was for that was refused, and how many files had been opened
Refused = collections.namedtuple("Refused", "outcome size opened")


def refused_in_turn(run, *given, first=1, step=1):
    """What came of a run with a request for memory refused: the first, then the one so many steps after it, to the last."""
    for nth in itertools.count(first, step):
        outcome, told = run(*given, TROUBLE_NTH=str(nth), TROUBLE_KIND="refuse")
        if not told:
            return
        yield Refused(outcome, *map(int, told))


def wants_of_memory(words, refused):
    """The outcomes of a run with out of memory. Where memory for the path of a file was refused, the file can't be read or
    written."""
    yield Outcome(b"", b"cborn: out of memory\n", 4)
    if any(re.match("-o|--output", word) for word in words):
        yield Outcome(b"", b"cborn: write failed\n", 4)
    files = files_of(words)
    if refused.opened < len(files) and refused.size == len(os.fsencode(files[refused.opened])) + 1:
        which = which_input(words, refused.opened)
        yield Outcome(b"", os.fsencode(f"cborn: {which}cannot read {files[refused.opened]}\n"), 4)


def wants_of_several(named, words):
    """What a run on several files answers of which one lacks its answer, or some of its explanation, for want of memory."""
    for at, (name, part) in enumerate(named):
        # what explains an answer stands after a line with the name of its file
        title = b"  file  %s\n" % name if part.out else b""
        explained = Outcome(b"", part.err.removeprefix(title), part.status)
        shorter = (it.stderr and title + it.stderr for it in shorter_explanations(words, explained))
        wants = (Part(b"", line % name, 4) for line in (b"cborn: %s: out of memory\n", b"cborn: cannot read %s\n"))
        for want in itertools.chain(wants, (part._replace(err=err) for err in shorter)):
            yield joined([*(it for _, it in named[:at]), want, *(it for _, it in named[at + 1 :])])


def shorter_explanations(words, ample):
    """What a run answers that has no memory to explain its answer to the end, or for a hint, each of which is made by itself."""
    if "--explain" in words:
        none = b"  out of memory\n"
        lines = ample.stderr.splitlines(keepends=True)
        first = sum(not line.startswith(b"  ") for line in lines)
        end = len(lines) - sum(line.startswith(b"  hint ") for line in lines)
        starts = [lines[:end], *([*lines[:kept], none] for kept in range(first, end + 1))]
        for start, *hints in itertools.product(starts, *([[hint], [none]] for hint in lines[end:])):
            said = [*start, *itertools.chain(*hints)]
            # the line isn't said twice in a row
            yield ample._replace(stderr=b"".join(line for before, line in zip([b"", *said], said) if line != none or before != none))


def command_lines(served, those):
    """Each command line of some cases: its name, how many growths it has, and the outcomes that it may not have."""
    for table, case in cases(those):
        ample, _ = served.of_case(case)
        found = list(refused_in_turn(served.of_case, case))
        yield f"{table}: {case.name}", *judged(found, lambda refused: refused.outcome in allowed(case, ample, refused))


def allowed(case, ample, refused):
    """The outcomes that a run may have with a growth refused."""
    # a want of memory leaves the folder as it was
    wants = (it._replace(left=case.before) for it in wants_of_memory(case.words, refused))
    several = wants_of_several(parts_of(case.words, ample), case.words)
    return ample, *wants, *shorter_explanations(case.words, ample), *several


def judged(outcomes, is_right):
    """How many they are, and a line for each that isn't right."""
    return len(outcomes), [f"growth {nth} of {len(outcomes)}: {it}" for nth, it in enumerate(outcomes, 1) if not is_right(it)]


def passes_or_wants(outcome):
    return outcome.status == 0 or (outcome.status in (FAILED, ABORTED) and WANT.search(outcome.stderr))


def shares_of_tests(tests):
    """The shares of all built tests but those of fronts: its name, and which growth is refused first."""
    told = subprocess.run([tests, "--list"], stdout=subprocess.PIPE, text=True, check=True).stdout
    names = re.findall(r"^(?!fronts::)(.*): test$", told, re.MULTILINE)
    return [(name, first) for name in names for first in range(1, SHARES + 1)]


def built_tests(served, shares):
    """Each share of these tests: its name, how many growths it has, and the outcomes that it may not have."""
    for name, first in shares:
        ample = served.run([name])
        if ample.status == 0:
            outcomes = [it.outcome for it in refused_in_turn(served.told, [name], first=first, step=SHARES)]
            yield f"{name}, one growth in {SHARES} from growth {first}", *judged(outcomes, passes_or_wants)
        else:
            yield f"{name}, with ample memory", *judged([ample], lambda _: False)


def main():
    is_of_tests = sys.argv[1] == "--tests"
    program, *tables = sys.argv[1 + is_of_tests :]
    those = shares_of_tests(os.path.abspath(program)) if is_of_tests else listed(tables)
    find = built_tests if is_of_tests else command_lines
    runs, _, growths, wrong = shared.served_over_processors(find, those, program, "serve.c", "trouble.c")
    runs = runs // SHARES if is_of_tests else runs
    return shared.status(growths, wrong, f"{growths} growths of {runs} runs refused in turn")


if __name__ == "__main__":
    sys.exit(main())
