"""The program cborn, for whoever has the wheel alone: its commands, options, lines and statuses, over this library.

The wheel installs it as `cborn`, too. With --explain it says what the program says. Only with --explain it says that an input
looks like a text.
"""

from __future__ import annotations

import argparse
import contextlib
import functools
import os
import re
import signal
import sys
import typing

import cborn

from . import _cborn

DONE, DIFFERENT, REFUSED, USAGE, FAILED = range(5)
MOST = 2**30
PIECE = 2**20
KINDS = {"wire": cborn.Kind.WIRE, "notation": cborn.Kind.NOTATION, "notation-2": cborn.Kind.NOTATION_2}
ORDERS = {"bytewise": cborn.Order.BYTEWISE, "length-first": cborn.Order.LENGTH_FIRST}
ABOUT = "Reads CBOR data items and writes their deterministic encoding"
NOTES = """\
An input is any number of items, one after another: at most 2^30 bytes. Floats
are left out: an input with a float is refused. Input is read as CBOR bytes
unless '--from notation' is given. Text, hexadecimal included, can happen to be
valid CBOR.

Exit status:
  0  done; the inputs hold the same items; the input is deterministic
  1  the inputs differ; the input isn't deterministic
  2  an input is refused: a line on standard error says at which offset, in
     bytes from the start, and why; nothing is written to standard output
  3  the command line is wrong
  4  a file can't be opened, a read or a write failed, or out of memory
"""


class Trouble(Exception):
    """Why there is no answer: the lines for standard error, and the status."""

    def __init__(self, lines: str, status: int) -> None:
        super().__init__(lines)
        self.lines = lines
        self.status = status


class Parser(argparse.ArgumentParser):
    def error(self, message: str) -> typing.NoReturn:
        lines = "\n".join(map(escaped, message.split("\n")))
        raise Trouble(f"error: {lines}\n\n{self.format_usage()}", USAGE)

    def _print_message(self, message: str, file: typing.Any = None) -> None:
        """Writes the help or the version, as any other output."""
        write(message.encode())


class Once(argparse.Action):
    """Stores a value, or that an option without one is there, and refuses an option that is given twice."""

    is_given = False

    def __call__(
        self,
        parser: argparse.ArgumentParser,
        namespace: argparse.Namespace,
        values: object,
        option_string: str | None = None,
    ) -> None:
        if self.is_given:
            parser.error(f"the argument '{option_string}' cannot be used multiple times")
        self.is_given = True
        setattr(namespace, self.dest, True if self.nargs == 0 else values)


def depth_of(word: str) -> int:
    depth = int(word) if re.fullmatch(r"\+?[0-9]{1,30}", word, re.ASCII) else 0
    if not 1 <= depth <= 1024:
        raise argparse.ArgumentTypeError(f"'{word}' is not from 1 to 1024")
    return depth


EXPLAINS = "say on standard error where in the input, and why, after a refusal or a defect"
EXPLAINS_COMPARED = "say on standard error where in the inputs, and why, after a refusal or an answer"


def with_options(
    parser: argparse.ArgumentParser, kinds: typing.Sequence[str], to: str | None, has_order: bool, explains: str = EXPLAINS
) -> None:
    """Adds the options of a command: those of its inputs' formats, and the others that it has."""
    for name in kinds:
        parser.add_argument(f"--{name}", metavar="KIND", choices=list(KINDS), default="wire", action=Once,
                            help="an input's format: wire (bytes), notation or notation-2 [default: wire]")
    if to is not None:
        parser.add_argument("--to", metavar="KIND", choices=["wire", "notation"], default=to, action=Once,
                            help=f"the format to write: wire (bytes) or notation [default: {to}]")
    if has_order:
        parser.add_argument("--order", metavar="ORDER", choices=list(ORDERS), default="bytewise", action=Once,
                            help="sort map keys bytewise, by encoded bytes (RFC 8949 section 4.2.1), or length-first, "
                            "shortest first (4.2.3) [default: bytewise]")
    parser.add_argument("--depth", metavar="N", type=depth_of, default=128, action=Once,
                        help="the maximum nesting depth of arrays, maps and tags, 1 to 1024 [default: 128]")
    parser.add_argument("--one", nargs=0, default=False, action=Once,
                        help="refuse an input that holds no item, or more than one")
    parser.add_argument("--explain", nargs=0, default=False, action=Once, help=explains)


def parser() -> Parser:
    how: dict[str, typing.Any] = {"allow_abbrev": False, "formatter_class": argparse.RawDescriptionHelpFormatter}
    program = Parser(prog="cborn", description=ABOUT, epilog=NOTES, **how)
    # as the program writes it; Python's packages have a form of their own for what follows a release
    version = cborn.__version__.replace(".dev0", "-dev")
    program.add_argument("-V", "--version", action="version", version=f"cborn {version}")
    commands = program.add_subparsers(dest="command", required=True, metavar="COMMAND")
    show = commands.add_parser("show", help="write the input's items as they are encoded, as notation or bytes", **how)
    with_options(show, ["from"], "notation", has_order=False)
    normalise = commands.add_parser("normalise", help="write the deterministic encoding of the input's items", **how)
    with_options(normalise, ["from"], "wire", has_order=True)
    compare = commands.add_parser("compare", help="tell whether two inputs hold the same items", **how)
    with_options(compare, ["from-a", "from-b"], None, has_order=True, explains=EXPLAINS_COMPARED)
    check = commands.add_parser("check", help="tell whether the input is in the deterministic encoding", **how)
    with_options(check, [], None, has_order=True)
    for command in (show, normalise, check):
        command.add_argument("FILE", nargs="?", help="the file to read, in place of standard input")
    compare.add_argument("FILE_A")
    compare.add_argument("FILE_B")
    return program


# what is a control or not shown, ends a line or turns its direction
ESCAPED = re.compile(
    "[\x00-\x1f\x7f-\x9f\xad\u034f\u061c\u115f\u1160\u17b4\u17b5\u180b-\u180f\u200b-\u200f\u2028-\u202f"
    "\u205f-\u206f\u3164\ufe00-\ufe0f\ufeff\uffa0\ufff0-\ufffb\ue000-\uf8ff"
    "\U00013430-\U0001343f\U0001bca0-\U0001bca3\U0001d173-\U0001d17a\U000e0000-\U0010ffff]"
)


def escaped(name: str) -> str:
    """A name of a file, so that it changes nothing but the line that it is in."""
    return ESCAPED.sub(lambda c: f"\\u{ord(c[0]):04x}", name)


def read(name: str | None, side: str = "") -> bytearray:
    """The bytes of a file or of standard input: one more than the most at most, so that too long an input is known."""
    try:
        file = 0 if name is None else os.open(name, os.O_RDONLY | os.O_CLOEXEC)
    except OSError:
        raise Trouble(f"cborn: {side}cannot read {escaped(name or '')}\n", FAILED) from None
    data = bytearray()
    try:
        while len(data) <= MOST:
            piece = os.read(file, min(PIECE, MOST + 1 - len(data)))
            if not piece:
                break
            data += piece
    except OSError:
        raise Trouble(f"cborn: {side}read failed\n", FAILED) from None
    finally:
        if name is not None:
            os.close(file)
    return data


def write_all(file: int, data: bytes) -> None:
    rest = memoryview(data)
    while rest:
        rest = rest[os.write(file, rest):]


def write(data: bytes) -> None:
    """Writes to standard output."""
    try:
        write_all(1, data)
    except OSError:
        raise Trouble("cborn: write failed\n", FAILED) from None


def tell(lines: str) -> None:
    """Writes to standard error."""
    with contextlib.suppress(OSError):
        write_all(2, lines.encode("utf-8", "surrogateescape"))


def told(line: str, status: int) -> tuple[bytes, int]:
    return f"{line}\n".encode(), status


def compared(asked: argparse.Namespace, inputs: list[bytearray]) -> tuple[bytes, int]:
    """Compares two files. A fault of the first comes before any trouble with the second."""
    kinds = kinds_of(asked)
    inputs.append(read(asked.FILE_A, "first: "))
    try:
        inputs.append(read(asked.FILE_B, "second: "))
    except Trouble:
        cborn.normalise(inputs[0], kinds[0], depth=asked.depth, one=asked.one)
        raise
    index = cborn.compare(inputs[0], inputs[1], *kinds, asked.depth, asked.one)
    return told("same", DONE) if index is None else told(f"different at item {index}", DIFFERENT)


def kinds_of(asked: argparse.Namespace) -> tuple[cborn.Kind, cborn.Kind]:
    """The formats of the inputs. The second is of use for `compare` alone."""
    first, second = ("from_a", "from_b") if asked.command == "compare" else ("from", "from")
    return KINDS[getattr(asked, first, "wire")], KINDS[getattr(asked, second, "wire")]


def answered(asked: argparse.Namespace, inputs: list[bytearray]) -> tuple[bytes, int, cborn.Defect | None]:
    """What goes to standard output, the status, and the defect that `check` tells. Each input is added to `inputs`."""
    if asked.command == "compare":
        return *compared(asked, inputs), None
    inputs.append(data := read(asked.FILE))
    source, _ = kinds_of(asked)
    if asked.command == "check":
        defect = cborn.check(data, ORDERS[asked.order], asked.depth, asked.one)
        line, status = ("deterministic", DONE) if defect is None else (f"offset {defect.place}: {defect.reason}", DIFFERENT)
        return *told(line, status), defect
    if asked.command == "normalise":
        return cborn.normalise(data, source, KINDS[asked.to], ORDERS[asked.order], asked.depth, asked.one), DONE, None
    if asked.to == "wire":
        return cborn.spell(data, source, asked.depth, asked.one), DONE, None
    return cborn.show(data, source, asked.depth, asked.one).encode(), DONE, None


def hint(data: bytearray, source: cborn.Kind, name: str) -> str:
    """The line that says what bytes look like, where they look like a text. `name` are the words for that input.

    It is the last line of an explanation, whatever that explains: here an input that ends too early, at its start.
    """
    if source is not cborn.Kind.WIRE:
        return ""
    lines = cborn.CbornError(cborn.Reason.TRUNCATED.number, 0)._lines(data).splitlines(keepends=True)
    return lines[-1].replace("the input", name, 1) if lines[-1].startswith("  hint ") else ""


def explained(explain: typing.Callable[[], str]) -> str:
    """What `explain` returns, or that there is no memory for it."""
    try:
        return explain()
    except MemoryError:
        return "  out of memory\n"


def done(words: typing.Sequence[str]) -> int:
    """Does what the words ask for, and gives the status.

    Raises Trouble and MemoryError for what keeps it from being done.
    """
    if any("\udc80" <= c <= "\udcff" for word in words for c in word):
        raise Trouble("error: an argument is not UTF-8\n", USAGE)
    asked = parser().parse_args(words)
    if getattr(asked, "to", None) == "wire" and os.isatty(1) and os.isatty(2):
        print("cborn: hint: the answer is bytes: --to notation makes a text of them", file=sys.stderr)
    inputs: list[bytearray] = []
    try:
        output, status, defect = answered(asked, inputs)
    except cborn.CbornError as why:
        side = "first: " if asked.command == "compare" and not why.input else ""
        lines = explained(functools.partial(why._lines, inputs[why.input])) if asked.explain else ""
        raise Trouble(f"cborn: {side}{why}\n{lines}", REFUSED) from None
    write(output)
    if asked.explain:
        tell(said_after(asked, inputs, defect))
    return status


def said_after(asked: argparse.Namespace, inputs: list[bytearray], defect: cborn.Defect | None) -> str:
    """What is said after an answer."""
    if defect is not None:
        return explained(functools.partial(defect._lines, inputs[0], asked.depth))
    if asked.command != "compare":
        return explained(lambda: hint(inputs[0], kinds_of(asked)[0], "the input"))
    names = ["the first input", "the second input"]
    kinds, order = kinds_of(asked), ORDERS[asked.order]
    lines = explained(lambda: _cborn.explain_comparison(inputs[0], inputs[1], kinds[0], kinds[1], order, asked.depth))
    return lines + explained(lambda: "".join(map(hint, inputs, kinds, names)))


def main(words: typing.Sequence[str]) -> int:
    try:
        return done(words)
    except Trouble as trouble:
        tell(trouble.lines)
        return trouble.status
    except MemoryError:
        tell("cborn: out of memory\n")
        return FAILED


def run() -> typing.NoReturn:
    """The command `cborn` of the wheel, and `python -m cborn`. Ctrl-C ends it at once."""
    signal.signal(signal.SIGINT, signal.SIG_DFL)
    sys.exit(main(sys.argv[1:]))


if __name__ == "__main__":
    run()
