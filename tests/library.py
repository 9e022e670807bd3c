#!/usr/bin/env python3
"""Put each command line of the tables of this folder that is a call through the library, from C and from Python.

    library.py PROGRAM FOLDER

FOLDER has libcborn.a and python/cborn, the package. An answer of the library is written as the program would print it, and
compared with the table and with what the program prints, and so is each explanation. The number of a fault is compared with
the program's words, by way of include/cborn.h, docs/FORMATS.md and the bindings. Each number has to occur. Nests under the
least, the usual and the largest limit are tried, too, and short inputs of bytes are cut into their items. `python -m cborn`
has to do the command lines of the tables as the program does, but reads one file and has no -o. library.c, which is compiled
by $CC or cc, says what else is tested. Command lines that are no call (with files that fail, or for help) are counted.
"""
import argparse
import collections
import copy
import itertools
import mmap
import pathlib
import re
import subprocess
import sys
import tempfile

import shared
from reading import chunked, embedded, head
from run import FORMS, Case, Outcome, cases, listed, single_runs, tables_in

HERE = pathlib.Path(__file__).resolve().parent
TOP = HERE.parent
KINDS = {"wire": 0, "notation": 1, "notation-2": 2}
ORDERS = {"bytewise": 0, "length-first": 1}
BAD_ARGUMENT, OUT_OF_MEMORY, TOO_LONG, DIFFERENT, NO_ITEM = 2, 3, 4, 5, 0x701
# inputs up to this length are cut into their items, too
SHORT = 512
OF_SECOND = 0x10000
# what the program has and `python -m cborn` hasn't: several files, and a file for the answer
OF_PROGRAM = ("several.table", "output.table")
WRAPPED = "-Wl,--wrap=malloc,--wrap=realloc,--wrap=free"


# the words of each number of a fault: the comment in the header, a row of the page up to what explains it, and those in Rust
WORDS = {
    "header": ("include/cborn.h", r"= (0x[0-9a-f]{3}),\s*/\* (.*?) \*/"),
    "page": ("docs/FORMATS.md", r"^\| `(0x[0-9a-f]{3})` \| ([^|:,]+?)(?:[:,][^|]*)? \|"),
    "rust": ("bindings/rust/src/reasons.rs", r' = (0x[0-9a-f]{3}), "(.*?)";'),
}


def words_in(name):
    path, row = WORDS[name]
    return {int(n, 16): words for n, words in re.findall(row, (TOP / path).read_text(), re.MULTILINE)}


class Options(argparse.ArgumentParser):
    def error(self, message):
        raise ValueError(message)


def parser():
    words = Options(add_help=False)
    words.add_argument("command", choices=("normalise", "show", "check", "compare"))
    for name, of_input in (("--from", "source"), ("--from-a", "from_a"), ("--from-b", "from_b")):
        words.add_argument(name, dest=of_input, choices=KINDS, default="wire")
    words.add_argument("--to", choices=("wire", "notation"))
    words.add_argument("--order", choices=ORDERS, default="bytewise")
    words.add_argument("--depth", type=int, default=128)
    words.add_argument("--one", action="store_true")
    words.add_argument("--explain", action="store_true")
    words.add_argument("files", nargs="*")
    return words


def parsed(case):
    """What a command line asks for, with its files, or None where it is no call."""
    if case.is_failing or case.output is not None:
        return None
    try:
        asked = parser().parse_args(case.words)
    except ValueError:
        return None
    if case.status == 3 and 1 <= asked.depth <= 1024:
        return None
    if asked.command != "compare" and not asked.files:
        pathlib.Path(case.folder, "standard-input").write_bytes(case.stdin)
        asked.files = ["standard-input"]
    asked.files = [pathlib.Path(case.folder, name) for name in asked.files]
    is_call = len(asked.files) == (2 if asked.command == "compare" else 1) and all(path.is_file() for path in asked.files)
    return asked if is_call else None


def line_of(asked, command=None):
    """The call for library.c: the command that is asked for, or another one with the same options."""
    name = f"{asked.command}-one" if asked.one else command or asked.command
    written = asked.to or ("notation" if asked.command == "show" else "wire")
    kinds = (asked.from_a, asked.from_b) if asked.command == "compare" else (asked.source, written)
    return call_of(name, asked.depth, *asked.files, kinds=[KINDS[kind] for kind in kinds], order=ORDERS[asked.order])


def call_of(name, depth, *files, kinds=(0, 0), order=0, number=0, place=0):
    """The line of a call for library.c."""
    return " ".join(map(str, (name, *kinds, order, depth, number, place, *files)))


def mapped(path):
    """A file's bytes, where they lie."""
    with path.open("rb") as file:
        return mmap.mmap(file.fileno(), 0, access=mmap.ACCESS_READ) if path.stat().st_size else b""


class InC:
    """The library, called by library.c."""

    def __init__(self, folder, build):
        flags = ["-std=c11", "-O2", "-Wall", "-Wextra", "-Werror", "-pthread", f"-I{TOP}/include", WRAPPED]
        program = shared.compiled(f"{folder}/library", *flags, HERE / "library.c", f"{build}/libcborn.a")
        self.child = subprocess.Popen([program], stdin=subprocess.PIPE, stdout=subprocess.PIPE)

    def line(self, line):
        """What a line of standard input is answered."""
        try:
            self.child.stdin.write(line.encode() + b"\n")
            self.child.stdin.flush()
            told = self.child.stdout.readline().split()
        except BrokenPipeError:
            told = []
        if len(told) != 3:
            sys.exit(f"library.c ended at this line, or at the one before: {line}")
        code, place, length = map(int, told)
        return code, place, self.child.stdout.read(length)

    def answer(self, asked):
        return self.line(line_of(asked))

    def contradictions(self, asked, answer):
        """What is wrong with what has to answer the same: cborn_same, where cborn_compare is asked for (or cborn_compare_one once
        more), and the second notation, which is written as the first is."""
        code, place, out = answer
        if asked.command == "compare":
            same = self.line(line_of(asked, "same"))
            if same != (code, 0 if code == DIFFERENT else place, out):
                yield f"cborn_same answers {same}, cborn_compare {answer}"
        if asked.to == "notation":
            second = copy.copy(asked)
            second.to = "notation-2"
            if (other := self.answer(second)) != answer:
                yield f"to the second notation another answer comes: {other}"

    def explained(self, asked, answer):
        """What cborn_explain writes on the fault or the defect that was reported."""
        code, place, _ = answer
        which = code // OF_SECOND
        kind = KINDS[(asked.from_a, asked.from_b)[which] if asked.command == "compare" else asked.source]
        answer = self.line(call_of("explain", asked.depth, asked.files[which], kinds=(kind, 0), number=code, place=place))
        return answer[2] if answer[:2] == (0, 0) else answer

    def ends(self, depth, path):
        """Where the items of a file of bytes end, by cborn_item_end, and what is answered after the last."""
        ends = [0]
        while True:
            code, place, _ = self.line(call_of("end", depth, path, place=ends[-1]))
            if code != 0 or place <= ends[-1]:
                return ends, (code, place)
            ends.append(place)

    def words(self, numbers):
        """The words of those of these numbers that have some."""
        told = {number: self.line(call_of("words", 0, number=number)) for number in numbers}
        return {number: words.decode() for number, (code, _, words) in told.items() if code == 0}

    def end(self):
        self.child.stdin.close()
        told = self.child.stdout.read().decode().strip()
        return told if self.child.wait() == 0 else sys.exit("library.c failed")


class InPython:
    """The library, called by the Python binding: the answer in the same form."""

    def __init__(self, build):
        sys.path.insert(0, f"{build}/python")
        import cborn

        self.cborn = cborn

    def called(self, asked, inputs):
        cborn, source, order = self.cborn, KINDS[asked.source], ORDERS[asked.order]
        if asked.command == "normalise":
            return cborn.normalise(inputs[0], source, KINDS[asked.to or "wire"], order, asked.depth, asked.one)
        if asked.command == "show":
            if asked.to == "wire":
                return cborn.spell(inputs[0], source, asked.depth, asked.one)
            return cborn.show(inputs[0], source, asked.depth, asked.one).encode()
        if asked.command == "check":
            return cborn.check(inputs[0], order, asked.depth, asked.one)
        return cborn.compare(*inputs, KINDS[asked.from_a], KINDS[asked.from_b], asked.depth, asked.one)

    def shortly(self, asked, inputs):
        """What is answered by the call that only says whether."""
        cborn = self.cborn
        if asked.command == "check":
            return cborn.is_deterministic(inputs[0], ORDERS[asked.order], asked.depth, asked.one)
        return cborn.same(*inputs, KINDS[asked.from_a], KINDS[asked.from_b], asked.depth, asked.one)

    def explained(self, asked, _):
        """What the error or the defect says of itself, of options where `explain` names arguments."""
        inputs = [mapped(path) for path in asked.files]
        try:
            return self.called(asked, inputs)._lines(inputs[0], asked.depth).encode()
        except self.cborn.CbornError as why:
            return why._lines(inputs[why.input]).encode()

    def refused(self, call, asked, inputs):
        """What a call returns, and what it raises in the form of an answer, or None."""
        try:
            return call(asked, inputs), None
        except self.cborn.CbornError as why:
            return None, (why.number + OF_SECOND * why.input, why.place or 0, b"")
        except ValueError:
            return None, (BAD_ARGUMENT, 99, b"")

    def answer(self, asked):
        inputs = [mapped(path) for path in asked.files]
        told, refused = self.refused(self.called, asked, inputs)
        if asked.command in ("check", "compare") and self.refused(self.shortly, asked, inputs) != (None if refused else told is None, refused):
            raise AssertionError(f"the call that only says whether says otherwise: {asked}")
        if refused or told is None:
            return refused or (0, 0, b"")
        if asked.command == "check":
            return told.reason.number, told.place, b""
        return (DIFFERENT, told, b"") if asked.command == "compare" else (0, 0, told)


def printed(asked, answer, words):
    """What the program would print and answer."""
    code, place, out = answer
    if code == 0:
        lines = {"check": b"deterministic\n", "compare": b"same\n"}
        return Outcome(lines.get(asked.command, out), b"", 0)
    if code == DIFFERENT:
        return Outcome(f"different at item {place}\n".encode(), b"", 1)
    if code >> 8 == 6:
        return Outcome(f"offset {place}: {words[code]}\n".encode(), b"", 1)
    side = "" if asked.command != "compare" else "second: " if code >= OF_SECOND else "first: "
    code %= OF_SECOND
    why = "input too long" if code == TOO_LONG else f"offset {place}: {words[code]}"
    return Outcome(b"", f"cborn: {side}{why}\n".encode(), 2)


def differences(case, asked, answer, words, program):
    """What is wrong with an answer to a command line."""
    if answer[0] == BAD_ARGUMENT:
        if case.status != 3:
            yield "a number stands for nothing"
        return
    outcome = printed(asked, answer, words)
    yield from case.differences(outcome)
    if outcome != program:
        yield f"the program does otherwise: {program}"


def unexplained(case, asked, answer, callers, program):
    """What is wrong with what is said of an input that is refused, or isn't deterministic."""
    code = answer[0]
    if code % OF_SECOND < 0x100:
        return
    told = copy.copy(case)
    told.words = [*(word for word in case.words if word != "--explain"), "--explain"]
    lines = told.run(program).stderr
    if code >> 8 != 6:
        lines = lines.partition(b"\n")[2]
    for name, caller in callers.items():
        explained = caller.explained(asked, answer)
        if explained != lines or not lines:
            yield f"from {name} it is explained by {explained!r}, by the program by {lines!r}"


# An input of nested items, and what RFC 8949 and docs/FORMATS.md make of it: the bytes that it spells, their deterministic
# encoding, both in notation, and what `check` prints of bytes.
Nest = collections.namedtuple("Nest", "name kind data wire shortest text canonical defect")


def spelled(name, data, text):
    """A nest of bytes that are deterministic."""
    return Nest(name, "wire", data, data, data, text, text, "deterministic")


def nests_of(depth):
    """Nests of this depth: of arrays, of maps, of maps in keys, of tags and so on; and an array that is as long."""

    def around(opening, middle, closing):
        return opening * depth + middle + closing * depth

    indefinite, count = "offset 0: indefinite length", 65 * depth
    zeros = ", ".join("0" * count)
    turned, sorted_pairs = around(b"\xa2\x01\x00\x00", b"\x00", b""), around(b"\xa2\x00", b"\x00", b"\x01\x00")
    turned_text, sorted_text = around("{1: 0, 0: ", "0", "}"), around("{0: ", "0", ", 1: 0}")
    arrays, arrays_text = b"\x81" * (depth - 1) + b"\x80", around("[", "", "]")
    strings = embedded(depth)
    strings_text = f"h'{strings[len(head(2, len(embedded(depth - 1)))):].hex()}'"
    # the contents of a byte string stay as they are
    chunk = chunked(depth - 1)
    chunks, whole = chunked(depth), head(2, len(chunk)) + chunk
    return [
        spelled("arrays", around(b"\x81", b"\x00", b""), around("[", "0", "]")),
        spelled("maps", around(b"\xa1\x00", b"\x00", b""), around("{0: ", "0", "}")),
        spelled("keys", around(b"\xa1", b"\x00", b"\x00"), around("{", "0", ": 0}")),
        spelled("tags", around(b"\xc6", b"\x00", b""), around("6(", "0", ")")),
        Nest("wide-arrays", "wire", *[around(b"\x9f", b"", b"\xff")] * 2, arrays, around("[_ ", "", "]"), arrays_text, indefinite),
        Nest("wide-maps", "wire", *[around(b"\xbf\x00", b"\x00", b"\xff")] * 2, around(b"\xa1\x00", b"\x00", b""),
             around("{_ 0: ", "0", "}"), around("{0: ", "0", "}"), indefinite),
        Nest("turned-maps", "wire", turned, turned, sorted_pairs, turned_text, sorted_text, "offset 3: key order"),
        Nest("long-array", "wire", *[b"\x9f" + bytes(count) + b"\xff"] * 2, head(4, count) + bytes(count), f"[_ {zeros}]", f"[{zeros}]", indefinite),
        Nest("array-notation", "notation", arrays_text.encode(), arrays, arrays, arrays_text, arrays_text, None),
        Nest("map-notation", "notation", around("{1:0, 0:", "0", "}").encode(), turned, sorted_pairs, turned_text, sorted_text, None),
        Nest("embedded-notation", "notation", around("<<", "", ">>").encode(), strings, strings, strings_text, strings_text, None),
        Nest("joined-notation", "notation", around("''<<", "", ">>").encode(), strings, strings, strings_text, strings_text, None),
        Nest("chunked-notation", "notation", around("(_ ''<<", "", ">>)").encode(), chunks, whole, f"(_ h'{chunk.hex()}')", f"h'{chunk.hex()}'", None),
    ]


def nests():
    """Command lines of nests at the least, the usual and the largest limit, each with what it has to answer."""
    for depth in (1, 128, 1024):
        for nest in nests_of(depth):
            answers = {
                "normalise nest --from KIND": nest.shortest,
                "normalise nest --from KIND --to notation": f"{nest.canonical}\n".encode(),
                "show nest --from KIND": f"{nest.text}\n".encode(),
                "show nest --from KIND --to wire": nest.wire,
                "compare nest nest --from-a KIND --from-b KIND": b"same\n",
            }
            if nest.defect:
                answers["check nest"] = f"{nest.defect}\n".encode()
            for line, answer in answers.items():
                run = ("run", f"{line.replace('KIND', nest.kind)} --depth {depth}")
                status = ("status", "1" if answer.startswith(b"offset ") else "0")
                lines = [("case", nest.name), ("file", f"nest hex {nest.data.hex()}"), run, ("stdout", f"hex {answer.hex()}"), status]
                yield f"{nest.name} of {depth}", lines


def twice(depth):
    """Maps whose keys are one nest of arrays, twice: refused, and explained by way of that nest. In bytes, and in notation."""
    key, text = b"\x81" * (depth - 2) + b"\x80", "[" * (depth - 1) + "]" * (depth - 1)
    faults = {"wire": (b"\xa2" + key + b"\x00" + key + b"\x00", len(key) + 2), "notation": (f"{{{text}:0,{text}:0}}".encode(), len(text) + 4)}
    for kind, (data, place) in faults.items():
        run = ("run", f"normalise nest --from {kind} --depth {depth}")
        stderr = ("stderr", f"cborn: offset {place}: duplicate key")
        yield f"keys of {depth}", [("case", "keys"), ("file", f"nest hex {data.hex()}"), run, stderr, ("status", "2")]


def through_python(build, runs):
    """How many of these runs of the tables `python -m cborn` was given, and what is wrong with what it does. Its help, and what it
    says of a wrong command line, are its own."""
    count, wrong = 0, []
    with tempfile.TemporaryDirectory() as folder:
        program = pathlib.Path(folder, "cborn")
        program.write_text(f'#!/bin/sh\nPYTHONPATH="{build}/python" exec "{sys.executable}" -m cborn "$@"\n')
        program.chmod(0o755)
        for table, case in cases(runs):
            outcome, count = case.run(program), count + 1
            if case.status != 3 and not {"--help", "-h"} & {*case.words}:
                lines = list(case.differences(outcome))
            elif outcome.status != case.status or bool(outcome.stdout) == bool(outcome.stderr):
                lines = [f"status is {outcome.status}, not {case.status}: {outcome.stdout!r} {outcome.stderr!r}"]
            else:
                continue
            wrong += [f"{table}: {case.name}: python -m cborn: {line}" for line in lines]
    return count, wrong


def uncut(asked, callers):
    """What is wrong with the cut of a file of bytes into its items. Each is one item to another call, and what follows them is
    the end, or the fault that another call has for the file."""
    cborn, path = callers["Python"].cborn, asked.files[0]
    data = path.read_bytes()
    ends, last = callers["C"].ends(asked.depth, path)
    pieces = [data[start:end] for start, end in zip(ends, ends[1:])]
    for piece in pieces:
        if cborn.spell(piece, cborn.Kind.WIRE, asked.depth, True) != piece:
            yield f"cborn_item_end gives {piece.hex()}, which isn't one item"
    whole = callers["C"].line(call_of("show", asked.depth, path))
    if last != ((NO_ITEM, len(data)) if whole[0] == 0 else whole[:2]):
        yield f"after the items cborn_item_end answers {last}, and cborn_show {whole[:2]}"
    found, refused = [], None
    try:
        for item in cborn.items(data, asked.depth):
            found.append(item)
    except cborn.CbornError as why:
        refused = why.number, why.place
    if found != pieces or refused != (None if last[0] == NO_ITEM else last):
        yield f"Python cuts into {[item.hex() for item in found]} and then {refused}, C into {ends} and then {last}"


def is_cut(asked):
    """Whether it is a short input of bytes, and a limit."""
    return asked.command != "compare" and asked.source == "wire" and 1 <= asked.depth <= 1024 and asked.files[0].stat().st_size <= SHORT


def tables_of_words(met, callers):
    """What is wrong with the tables of numbers."""
    in_c = callers["C"].words(range(0x800))
    of_second = callers["C"].words(range(OF_SECOND, OF_SECOND + 0x800))
    if of_second != {number + OF_SECOND: words for number, words in in_c.items() if number >> 8 != 6}:
        yield f"cborn_words has other words for a second input: {of_second}"
    beside = {number: in_c.pop(number, None) for number in range(0x100)}
    if {n: words for n, words in beside.items() if words} != {OUT_OF_MEMORY: "out of memory", TOO_LONG: "input too long"}:
        yield f"cborn_words has other words for what is no fault of the content: {beside}"
    in_python = {reason.number: str(reason) for reason in callers["Python"].cborn.Reason if reason.number > 0xFF}
    tables = {**{name: words_in(name) for name in WORDS}, "python": in_python, "cborn_words": in_c}
    for name, words in tables.items():
        for number in sorted({*words, *tables["header"]}):
            if words.get(number) != tables["header"].get(number):
                yield f"{number:#x} is {words.get(number)!r} in the table of {name}, {tables['header'].get(number)!r} in the header"
    for number in sorted(set(tables["header"]) - met):
        yield f"no command line has the fault {number:#x}"
    files = ("include/cborn.h", "bindings/rust/src/calls.rs", "bindings/python/cborn/__init__.py")
    figures = {name: set(re.findall(r"(\d+) \+ (\d+) \* \(?depth\)?", (TOP / name).read_text())) for name in files}
    if any(len(found) != 1 for found in figures.values()) or len(set().union(*figures.values())) != 1:
        yield f"the stack hasn't one figure in each: {figures}"


def main():
    program, build = (str(pathlib.Path(word).resolve()) for word in sys.argv[1:])
    words, met = words_in("header"), set()
    own = [table for table in tables_in(HERE) if table.name not in OF_PROGRAM]
    runs = ((table, run) for table, lines in listed(own) for run in single_runs(lines))
    through, wrong = shared.over_processors(through_python, runs, build, at_once=16)
    with tempfile.TemporaryDirectory() as folder:
        callers = {"C": InC(folder, build), "Python": InPython(build)}
        passed = others = explained = cut = 0
        for table, case in cases(itertools.chain(listed(tables_in(HERE, FORMS)), nests(), *map(twice, (2, 128, 1024)))):
            asked = parsed(case)
            if asked is None:
                others += 1
                continue
            done = case.run(program)
            before = len(wrong)
            for name, caller in callers.items():
                answer = caller.answer(asked)
                if name == "C":
                    wrong += [f"{table}: {case.name}: {line}" for line in caller.contradictions(asked, answer)]
                met.add(answer[0] % OF_SECOND)
                if not asked.explain:
                    wrong += [f"{table}: {case.name}: from {name}: {line}" for line in differences(case, asked, answer, words, done)]
            wrong += [f"{table}: {case.name}: {line}" for line in unexplained(case, asked, answer, callers, program)]
            explained += answer[0] % OF_SECOND >= 0x100
            if is_cut(asked):
                cut += 1
                wrong += [f"{table}: {case.name}: {line}" for line in uncut(asked, callers)]
            passed += len(wrong) == before
        wrong += tables_of_words(met, callers)
        told = callers["C"].end()
    for line in wrong:
        print(line)
    print(f"{passed} command lines passed through the library, {others} are no call, {explained} were explained, {cut} cut into items; {told}")
    print(f"{through} command lines through python -m cborn")
    print(f"{len(wrong)} failed")
    return 1 if wrong or not passed or not explained or not cut or not through else 0


if __name__ == "__main__":
    sys.exit(main())
