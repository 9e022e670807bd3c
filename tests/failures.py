#!/usr/bin/env python3
"""Make trouble for each opening, read and write in turn: run each command line of the tables of this folder once
for each of these calls and each kind of trouble.

    failures.py PROGRAM [TABLE..]

An opening fails, or is interrupted; a read too, or it gives one byte alone; a write too, or it takes one byte or
none. What the program has to do then is said by `wanted`: what went out is the answer's front up to that write,
and nothing where the trouble was the input's. Where several files are checked, the lines of the others stay. Where the
answer goes to a file, each call has trouble that puts a new file in its place too, and after a failure the folder is as
it was. trouble.c, which is compiled by $CC or cc, makes it, and serve.c begins the runs. Where a run has very many calls,
as on the longest inputs, its first and its last ones have trouble.
"""
import collections
import itertools
import os
import re
import sys

import shared
from run import Outcome, cases, listed

KINDS = {
    "open": ("fail", "interrupt"),
    "read": ("fail", "interrupt", "short"),
    "write": ("fail", "interrupt", "short", "nothing"),
    # of a file that an answer goes to; these are tried again where they are interrupted, but for a renaming
    **dict.fromkeys(("readlink", "statx"), ("fail",)),
    **dict.fromkeys(("create", "fchmod", "fsync", "rename"), ("fail", "interrupt")),
}
MANY, EACH_END = 64, 2
STANDARD_OUTPUT, STANDARD_ERROR = 1, 2
# which call had trouble, at which descriptor, and how many openings were tried and bytes written there before
Trouble = collections.namedtuple("Trouble", "call descriptor tried written")
NOT_WRITTEN = b"cborn: write failed\n"


def with_trouble(served, case, nth, kind):
    """The outcome of a run with trouble at its nth call, and which trouble that was, if it came so far."""
    outcome, told = served.of_case(case, TROUBLE_NTH=str(nth), TROUBLE_KIND=kind)
    return outcome, Trouble(told[0].decode(), *map(int, told[1:])) if told else None


def is_copied(words):
    """Whether what a command line writes is the engine's answer: its writes aren't tried again where they are
    interrupted, unlike those of a line or of the help."""
    return words[:1] in (["show"], ["normalise"]) and not {"-h", "--help"} & set(words)


def files_of(words):
    """The files that a command line reads, in their order: each option but --explain and --one is one word with its value, or two."""
    rest, names = iter(words[1:]), []
    for word in rest:
        if word == "--":
            return names + list(rest)
        if word.startswith("-") and word != "-":
            if word == "-o" or (word.startswith("--") and "=" not in word and word not in ("--explain", "--one")):
                next(rest, None)
        else:
            names.append(word)
    return names


def which_input(words, number):
    """How a fault of the first or second input is marked."""
    return ("first: ", "second: ")[number] if words[:1] == ["compare"] else ""


# what a run says of one of several files: to standard output, to standard error, and its status
Part = collections.namedtuple("Part", "out err status")


def parts_of(words, ample):
    """The part of each file, if a command line checks several; they are told by the names in front of them."""
    names = files_of(words) if words[:1] == ["check"] and not {"-h", "--help"} & set(words) else []
    out, err = (list(text.splitlines(keepends=True)) for text in ample[:2])
    parts = []
    for name in names if len(names) > 1 and ample.status != 3 else []:
        # it is printed with control characters and backslashes escaped
        name, ours = re.sub(r"[\x00-\x1f\x7f-\x9f\\\\]", lambda it: f"\\u{ord(it[0]):04x}", name).encode(), []
        own = (b"cborn: " + name + b": ", b"cborn: cannot read " + name + b"\n", b"  file  " + name + b"\n")
        is_refused = bool(err) and err[0].startswith(own[:2])
        if err and err[0].startswith(own):
            ours.append(err.pop(0))
            while err and err[0].startswith(b"  ") and not err[0].startswith(b"  file  "):
                ours.append(err.pop(0))
        said = b"" if is_refused else out.pop(0)
        is_failure = is_refused and (ours[0] == own[1] or ours[0].endswith((b": read failed\n", b": out of memory\n")))
        status = (4 if is_failure else 2) if is_refused else int(not said.endswith(b": deterministic\n"))
        parts.append((name, Part(said, b"".join(ours), status)))
    assert not out + err or not parts, f"{words}: {out} {err} is of no file"
    return parts


def joined(parts):
    """The outcome of a run on several files."""
    return Outcome(b"".join(it.out for it in parts), b"".join(it.err for it in parts), max(it.status for it in parts))


def of_several(named, trouble, kind):
    """What a run on several files with trouble has to answer."""
    parts = [part for _, part in named]
    is_refused = kind in ("fail", "nothing")
    if trouble.call == "open":
        at, line = trouble.tried, b"cborn: cannot read %s\n"
    elif trouble.call == "read":
        at, line = trouble.tried - 1, b"cborn: %s: read failed\n"
    else:
        is_out = trouble.descriptor == STANDARD_OUTPUT
        ends = list(itertools.accumulate(len(part.out if is_out else part.err) for part in parts))
        at = next(index for index, end in enumerate(ends) if trouble.written < end)
        if is_refused and is_out:
            return joined([*parts[:at], Part(b"", NOT_WRITTEN, 4)])
        cut = trouble.written - ([0, *ends])[at]
        line = parts[at].err[:cut] if is_refused else parts[at].err
        return joined([*parts[:at], parts[at]._replace(err=line), *parts[at + 1 :]])
    if kind == "fail" or (kind == "interrupt" and trouble.call == "read"):
        parts[at] = Part(b"", line % named[at][0], 4)
    return joined(parts)


def wanted(words, ample, trouble, kind):
    """What a run with trouble has to answer, where without it the answer is `ample`."""
    if several := parts_of(words, ample):
        return of_several(several, trouble, kind)
    is_error = kind == "fail" or (kind == "interrupt" and trouble.call == "read")
    if trouble.call == "open" and is_error:
        told = f"cborn: {which_input(words, trouble.tried)}cannot read "
        # a file that can't be opened in any case, whose name may be escaped
        if ample.stderr.startswith(told.encode()):
            return ample
        return Outcome(b"", os.fsencode(f"{told}{files_of(words)[trouble.tried]}\n"), 4)
    if trouble.call == "read" and is_error:
        which = which_input(words, trouble.tried - 1)
        return Outcome(b"", f"cborn: {which}read failed\n".encode(), 4)
    if trouble.call not in ("open", "read", "write"):
        is_final = trouble.call == "rename" and kind == "interrupt"
        return Outcome(b"", NOT_WRITTEN, 4) if kind == "fail" or is_final else ample
    if trouble.call != "write":
        return ample
    is_refused = kind in ("fail", "nothing")
    is_answer = trouble.descriptor != STANDARD_ERROR
    if is_answer and (is_refused or (kind == "interrupt" and is_copied(words))):
        return Outcome(ample.stdout[: trouble.written], NOT_WRITTEN, 4)
    if not is_answer and is_refused:
        return ample._replace(stderr=ample.stderr[: trouble.written])
    return ample


def chosen(count):
    """Which calls of a run have trouble."""
    if count <= MANY:
        return range(1, count + 1)
    return [*range(1, EACH_END + 1), *range(count - EACH_END + 1, count + 1)]


def tried_on(served, case):
    """Each trouble of a command line: which it was, the outcome, and what it has to be."""
    ample, told = served.of_case(case, TROUBLE_NTH="0", TROUBLE_KIND="none")
    if not told:
        yield "without trouble", ample, "an end of its own"
        return
    for nth in chosen(int(told[1])):
        outcome, trouble = with_trouble(served, case, nth, "fail")
        for kind in KINDS[trouble.call] if trouble else ["fail"]:
            if kind != "fail":
                outcome, trouble = with_trouble(served, case, nth, kind)
            # a socket gives its bytes in as many reads as it likes: a run that made fewer calls had no trouble
            answer = wanted(case.words, ample, trouble, kind) if trouble else ample
            # a failure leaves the folder as it was
            yield f"{kind} at {trouble}", outcome, answer if answer is ample else answer._replace(left=case.before)


def in_turn(served, those):
    """The command lines of some cases: each with how many troubles it had, and the wrong outcomes."""
    for table, case in cases(those):
        found = list(tried_on(served, case))
        wrong = [f"{name}: {outcome}, not {answer}" for name, outcome, answer in found if outcome != answer]
        yield f"{table}: {case.name}", len(found), wrong


def main():
    program, *tables = sys.argv[1:]
    runs, _, troubles, wrong = shared.served_over_processors(in_turn, listed(tables), program, "serve.c", "trouble.c")
    return shared.status(troubles, wrong, f"{troubles} troubles of {runs} command lines made in turn")


if __name__ == "__main__":
    sys.exit(main())
