#!/usr/bin/env python3
"""Give each front of each worked input to the built program, and compare what it answers with fronts.vectors.

    vectors.py PROGRAM
    vectors.py --inputs     writes the inputs into a module of crates/cborn_tests, which loads each front of each
    vectors.py --check      fails where that module isn't what --inputs writes

Each front is an input of `show --to wire`, of `normalise`, of `compare` on both sides, and, if it is of bytes, of
`check`. None of these calls `load`: tests in Rattle do. What is printed of a front that is read is computed by
reading.py, which has nothing of the program; of a text, from the bytes that the text spells which `show` makes of it.
fronts.vectors says how its lines are read.
"""
import pathlib
import sys
import tempfile
import textwrap

import reading
import shared
from run import Outcome, given_bytes


def vectors(path):
    """The lines of a file: the kinds of an input, its bytes, and (least length, answer) of its fronts."""
    for line in path.read_text().splitlines():
        if line and not line.startswith("#"):
            given, _, told = line.rpartition(" => ")
            kinds, _, rest = given.partition(" ")
            answers = [answer.split(" ", 1) for answer in told.split(", ")]
            yield kinds.split("+"), given_bytes(rest), [(0, "read"), *((int(least), answer) for least, answer in answers)]


def line_of(fault, length):
    """What the program prints of a fault, 'WORDS at PLACE', of an input of so many bytes."""
    words, _, place = fault.rpartition(" at ")
    return f"cborn: offset {length if place == 'end' else int(place)}: {words}\n".encode()


def refusals(answer, length):
    """The line that showing and normalising print of a front, or None where they are done."""
    is_read, _, fault = answer.partition(" but ")
    if is_read == "read":
        return None, line_of(fault, length) if fault else None
    return line_of(answer, length), line_of(answer, length)


def wanted(kind, front, spelled, answer, other):
    """Each command line on a front that spells these bytes, the content of the file `other` for it, and its outcome."""
    shown, normalised = refusals(answer, len(front))
    right = Outcome(spelled, b"", 0) if shown is None else Outcome(b"", shown, 2)
    yield ["show", "--to", "wire", "--from", kind], None, right
    if normalised is not None:
        refused = Outcome(b"", normalised, 2)
        yield ["normalise", "--from", kind], None, refused
        first, second = (refused._replace(stderr=normalised.replace(b"cborn:", b"cborn: %s:" % it, 1)) for it in (b"first", b"second"))
        yield ["compare", "--from-a", kind, "/dev/stdin", other], b"", first
        yield ["compare", "--from-b", kind, other, "/dev/stdin"], b"", second
        if kind == "wire":
            yield ["check"], None, refused
        return
    items = reading.canonical(spelled)
    yield ["normalise", "--from", kind], None, Outcome(b"".join(items), b"", 0)
    yield ["compare", "--from-a", kind, "/dev/stdin", other], b"".join(items), Outcome(b"same\n", b"", 0)
    longer = b"".join([*items, b"\x00"])
    yield ["compare", "--from-b", kind, other, "/dev/stdin"], longer, Outcome(f"different at item {len(items)}\n".encode(), b"", 1)
    if kind == "wire":
        told = reading.first_defect(front)
        yield ["check"], None, Outcome(told, b"", int(told != b"deterministic\n"))


def fronts(path):
    """Each front of each input: its kind, its bytes and its answer."""
    for kinds, content, answers in vectors(path):
        for length in range(len(content) + 1):
            answer = [answer for least, answer in answers if least <= length][-1]
            for kind in kinds:
                yield kind, content[:length], answer


def answered(served, those):
    """Some fronts: each with how many answers there were, and the wrong ones."""
    with tempfile.TemporaryDirectory() as folder:
        other = pathlib.Path(folder, "other")
        for kind, front, answer in those:
            spelled = front
            if kind != "wire":
                # a text has to spell what it spells once it is shown
                shown = served.run(["show", "--from", kind], front).stdout
                spelled = served.run(["show", "--to", "wire", "--from", "notation"], shown).stdout
            count, wrong = 0, []
            for words, beside, right in wanted(kind, front, spelled, answer, str(other)):
                if beside is not None:
                    other.write_bytes(beside)
                count += 1
                outcome = served.run(words, front)
                if outcome != right:
                    wrong.append(f"{' '.join(words)}: {outcome}, not {right} ({answer})")
            yield f"{kind} {front!r}", count, wrong


def literal(content):
    """The bytes of a text as a literal of Rattle: by its characters, as far as these are ASCII."""
    plain = {chr(byte): chr(byte) for byte in range(32, 127)} | {"\\": "\\\\", '"': '\\"', "\n": "\\n"}
    written = (plain.get(chr(byte)) or f"\\x{byte:02x}" for byte in content)
    return f'b"{"".join(written)}"'


def inputs_as_module(path):
    """The worked inputs as a module of constants, each once, but for maps of 1,000 keys."""
    found = {"BYTES": {}, "TEXTS": {}}
    for kinds, content, _ in vectors(path):
        if len(content) < 1024:
            found["BYTES" if "wire" in kinds else "TEXTS"][content] = None
    yield "//! The inputs of tests/fronts.vectors, made by tests/vectors.py: all but the maps of 1,000 keys.\n"
    words = textwrap.fill(" ".join(content.hex() for content in found["BYTES"] if content), 100, break_long_words=False)
    yield f'/// Bytes, in hexadecimal. The input without bytes is left out.\npub const BYTES: &str = "\\\n{words}";\n'
    yield f"/// Texts of the notation, of which two aren't UTF-8.\npub const TEXTS: [&[u8]; {len(found['TEXTS'])}] = ["
    yield from (f"    {literal(content)}," for content in found["TEXTS"])
    yield "];\n"


def main():
    here = pathlib.Path(__file__).resolve().parent
    if sys.argv[1] in ("--inputs", "--check"):
        module = here.parent / "crates/cborn_tests/src/fronts/inputs.rt"
        text = "\n".join(inputs_as_module(here / "fronts.vectors")).rstrip() + "\n"
        if sys.argv[1] == "--inputs":
            module.write_text(text, encoding="utf-8")
        elif module.read_text(encoding="utf-8") != text:
            print(f"{module}: isn't what tests/vectors.py --inputs writes")
            return 1
        return 0
    those = fronts(here / "fronts.vectors")
    *_, count, wrong = shared.served_over_processors(answered, those, sys.argv[1], "serve.c", at_once=256)
    return shared.status(count, wrong, f"{count - len(wrong)} answers to fronts passed")


if __name__ == "__main__":
    sys.exit(main())
