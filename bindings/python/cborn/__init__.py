"""CBOR (RFC 8949) in its one deterministic encoding, by the proved library cborn.

    normalise         the canonical form of the items in an input
    is_deterministic  whether an input is in that form already
    check             the first defect of an input that isn't, or None
    same              whether two inputs hold the same items
    compare           the index of the first item that differs, or None: the index 0 is falsy too
    show              the items of an input as they are encoded, in notation
    spell             the bytes that notation stands for
    items             the items of a sequence, one after another
    stack             how many bytes of stack a call takes
    version           the version of the library

    >>> import cborn
    >>> cborn.normalise(bytes.fromhex("98021801580161")).hex()
    '82014161'
    >>> cborn.show(bytes.fromhex("98021801580161"))
    "[_0 1_0, h'61'_0]\\n"
    >>> cborn.is_deterministic(bytes.fromhex("82014161"))
    True
    >>> cborn.same(bytes.fromhex("98021801580161"), b"[1, 'a']", source_b=cborn.Kind.NOTATION)
    True
    >>> cborn.normalise(bytes.fromhex("a20100c2410100"))
    Traceback (most recent call last):
    cborn.CbornError: offset 3: duplicate key

An input is any number of data items, one after another. With `one=True` it has to be exactly one. It is any object with
the buffer protocol (bytes, bytearray, memoryview, mmap, array, NumPy arrays), and is read without a copy. A str is not
accepted: encode notation first. Floats are left out: an input with one is refused. Calls may run in several threads at
once. They release the interpreter's lock while they work on 4,096 bytes or more. Nothing may write to an input meanwhile.
Ctrl-C doesn't end a call: KeyboardInterrupt is raised once it returns.

`depth` is the maximum nesting depth of arrays, maps and tags, from 1 to 1024. `stack` returns how many bytes of stack
a thread needs for it. With less, deeply nested input can overflow the stack and crash the process.

A fault is why an input is refused: it is malformed, or has a validity error. A defect is why a valid input isn't in the
deterministic encoding. `Reason` names both, and the method `explain` of an error and of a defect says where and why.

Each call raises TypeError for an input that is no buffer, or a value that is no member of `Kind` or `Order`. It raises
ValueError for a number that no member has, or a depth that is too small or too large.

`python -m cborn` is the program, with its commands `normalise`, `show`, `check` and `compare`; the wheel installs it as
`cborn`, too. With --explain it says where and why an input is refused or isn't deterministic, and where two inputs differ.
"""

from __future__ import annotations

import enum
import typing

from . import _cborn
from ._cborn import check, compare, is_deterministic, normalise, same, show, spell

if typing.TYPE_CHECKING:
    from collections.abc import Iterator

    from _typeshed import ReadableBuffer

__all__ = [
    "CbornError",
    "Defect",
    "Kind",
    "Order",
    "Reason",
    "__version__",
    "check",
    "compare",
    "is_deterministic",
    "items",
    "normalise",
    "same",
    "show",
    "spell",
    "stack",
    "version",
]


class Kind(enum.IntEnum):
    """The format of an input or an output. As output both notations are the same."""

    WIRE = 0
    """CBOR bytes: data items one after another (RFC 8742)."""
    NOTATION = 1
    """Diagnostic notation (RFC 8949 section 8, RFC 8610 Appendix G), in UTF-8."""
    NOTATION_2 = 2
    """Diagnostic notation with comments from # to the end of a line, and trailing commas."""


class Order(enum.IntEnum):
    """The sort order of map keys."""

    BYTEWISE = 0
    """By encoded bytes (RFC 8949 section 4.2.1)."""
    LENGTH_FIRST = 1
    """Shortest first (RFC 8949 section 4.2.3)."""


class Reason(str, enum.Enum):
    """Why an input is refused or isn't deterministic. As a str it is the words that the program prints.

    `number` is that of cborn.h. No number ever changes its meaning. docs/FORMATS.md says when each applies. A reason
    equals its words. It equals no other reason, not even one with the same words.

        >>> import cborn
        >>> cborn.Reason.INVALID_DUPLICATE_KEY == "duplicate key"
        True
        >>> cborn.Reason(0x503)
        Reason.INVALID_DUPLICATE_KEY
    """

    number: int

    INPUT_TOO_LONG = 0x4

    # malformed bytes
    RESERVED_ADDITIONAL_INFORMATION = 0x101
    INDEFINITE_LENGTH_NOT_ALLOWED = 0x102
    BAD_CHUNK = 0x103
    UNEXPECTED_BREAK = 0x104
    FLOAT_LEFT_OUT = 0x105
    BAD_SIMPLE = 0x106
    TOO_DEEP = 0x107
    TRUNCATED = 0x108
    # notation with an invalid token
    TEXT_UNEXPECTED_CHARACTER = 0x201
    TEXT_UNCLOSED_STRING = 0x202
    TEXT_UNCLOSED_COMMENT = 0x203
    TEXT_BAD_ESCAPE = 0x204
    TEXT_BAD_HEX = 0x205
    TEXT_BAD_BASE64 = 0x206
    TEXT_UNKNOWN_PREFIX = 0x207
    TEXT_BAD_NUMBER = 0x208
    TEXT_NUMBER_TOO_LARGE = 0x209
    TEXT_BAD_INDICATOR = 0x20A
    TEXT_FLOAT_LEFT_OUT = 0x20B
    # notation with a syntax error between tokens, or that notates no item
    TEXT_UNEXPECTED_TOKEN = 0x301
    TEXT_UNEXPECTED_END = 0x302
    TEXT_TOO_DEEP = 0x303
    TEXT_INDICATOR_TOO_NARROW = 0x304
    TEXT_INDICATOR_NOT_ALLOWED = 0x305
    TEXT_MIXED_STRING = 0x306
    TEXT_MIXED_CHUNKS = 0x307
    TEXT_NOT_UTF8 = 0x308
    TEXT_BAD_SIMPLE = 0x309
    TEXT_TAG_TOO_LARGE = 0x30A
    # not UTF-8: a whole input of notation, or a text string to be shown
    INPUT_NOT_UTF8 = 0x401
    SHOWN_NOT_UTF8 = 0x402
    # a validity error
    INVALID_NOT_UTF8 = 0x501
    INVALID_BAD_BIGNUM = 0x502
    INVALID_DUPLICATE_KEY = 0x503
    # a defect
    DEFECT_LONG_HEAD = 0x601
    DEFECT_INDEFINITE_LENGTH = 0x602
    DEFECT_LOOSE_BIGNUM = 0x603
    DEFECT_KEY_ORDER = 0x604
    # not one item, where `one` wants exactly one
    NO_ITEM = 0x701
    MORE_ITEMS = 0x702

    def __new__(cls, number: int) -> Reason:
        reason = str.__new__(cls, _cborn.words(number))
        reason._value_ = number
        reason.number = number
        return reason

    def __eq__(self, other: object) -> bool:
        return self is other if isinstance(other, Reason) else str.__eq__(self, other) is True

    def __ne__(self, other: object) -> bool:
        return not self == other

    # it equals its words, so it has their hash
    __hash__ = str.__hash__

    def __repr__(self) -> str:
        return f"{type(self).__name__}.{self.name}"

    def __str__(self) -> str:
        return str.__str__(self)

    def __format__(self, format_spec: str) -> str:
        return str.__format__(self, format_spec)


class CbornError(ValueError):
    """An input is refused: it is malformed, has a validity error, or is too long (more than 2**30 bytes).

    `reason` says why, and `number` is its number. `place` is the offset of the fault, in bytes from the start of the
    input, or None if the input is too long. `input` is 1 if it is the second input of `compare` or `same`, else 0.
    `source` and `depth` are the format of that input and the maximum nesting depth that it was read with. `explain`
    says where and why in lines for people.
    """

    number: int
    place: int | None
    input: int
    reason: Reason
    source: Kind
    depth: int

    def __init__(
        self, number: int, place: int | None, input: int = 0, source: Kind = Kind.WIRE, depth: int = 128
    ) -> None:
        super().__init__(number, place, input, source, depth)
        self.number = number
        self.place = place
        self.input = input
        self.reason = Reason(number)
        self.source = source
        self.depth = depth

    def __repr__(self) -> str:
        told = f"reason={self.reason!r}, place={self.place}, input={self.input}, source={type(self.source).__name__}.{self.source.name}, depth={self.depth}"
        return f"{type(self).__name__}({told})"

    def __str__(self) -> str:
        side = "second: " if self.input else ""
        where = "" if self.place is None else f"offset {self.place}: "
        return f"{side}{where}{self.reason}"

    def explain(self, data: ReadableBuffer) -> str:
        """Return lines that say where in `data` the fault is, what is there, and why.

        `data` is the input that was refused. The lines are those that the program adds with --explain, but they name
        arguments in place of options. docs/FORMATS.md says what is in them. The result is empty if the input is too
        long.

            >>> import cborn
            >>> data = bytes.fromhex("8201f93c00")
            >>> try:
            ...     cborn.normalise(data)
            ... except cborn.CbornError as why:
            ...     print(why)
            ...     print(why.explain(data), end="")
            offset 2: float left out
              path  item 0 [1]
              bytes 82 01 >f9< 3c 00
              why   a float of 16 bits begins here, and floats are left out

        Raises TypeError if `data` is no buffer, ValueError if no input of the format `source` is refused for this
        reason, and MemoryError.
        """
        return _with_arguments(self._lines(data))

    def _lines(self, data: ReadableBuffer) -> str:
        """The lines as the program writes them."""
        return "" if self.place is None else _cborn.explain(data, self.number, self.place, self.source, self.depth)


class Defect(typing.NamedTuple):
    """Why an input isn't deterministic: the first reason, and its offset."""

    place: int
    """The offset of the first defect, in bytes from the start of the input."""
    reason: Reason
    """What it is."""

    def explain(self, data: ReadableBuffer, depth: int = 128) -> str:
        """Return lines that say where in `data` the defect is, and why it is one.

        `data` is the input that was checked, and `depth` the depth of that check. docs/FORMATS.md says what is in the
        lines. Raises TypeError if `data` is no buffer, and MemoryError.

            >>> import cborn
            >>> print(cborn.check(b"\\x18\\x01").explain(b"\\x18\\x01").splitlines()[1])
              bytes >18< 01
        """
        return _with_arguments(self._lines(data, depth))

    def _lines(self, data: ReadableBuffer, depth: int) -> str:
        """The lines as the program writes them."""
        return _cborn.explain(data, self.reason.number, self.place, Kind.WIRE, depth)


# what the lines of the program say of its options, and what is said of the arguments in its place
_ARGUMENTS = {
    ": --depth N raises the limit, up to 1024": ": depth=N raises the limit, up to 1024",
    "normalise and show read diagnostic notation by --from notation, compare by --from-a and --from-b":
        "source=Kind.NOTATION reads diagnostic notation, of compare and same source_a and source_b",
    "xxd -r -p makes bytes of it": "bytes.fromhex(text) makes bytes of it",
}


def _with_arguments(lines: str) -> str:
    """The lines of an explanation with arguments in place of options. Quotes of the input are left as they are."""
    told = lines.splitlines(keepends=True)
    for i, line in enumerate(told):
        if line.startswith(("  why   the nesting limit is ", "  hint  ")):
            for option, argument in _ARGUMENTS.items():
                told[i] = told[i].replace(option, argument)
    return "".join(told)


_OF_SECOND = 0x10000


def _fault(code: int, place: int, source: int, depth: int) -> CbornError:
    """The exception for the number that a call answered, for an input of this format and with this depth."""
    which, number = divmod(code, _OF_SECOND)
    where = None if number == Reason.INPUT_TOO_LONG.number else place
    return CbornError(number, where, which, Kind(source), depth)


# quicker than Reason(number)
_REASONS = {reason.number: reason for reason in Reason}


def _defect(code: int, place: int) -> Defect:
    return Defect._make((place, _REASONS[code]))


_cborn.begin(Kind, Order, _fault, _defect)


@typing.overload
def items(data: memoryview, depth: int = 128) -> Iterator[memoryview]: ...
@typing.overload
def items(data: ReadableBuffer, depth: int = 128) -> Iterator[bytes]: ...
def items(data: ReadableBuffer, depth: int = 128) -> Iterator[bytes] | Iterator[memoryview]:
    """Return an iterator over the items of a sequence of CBOR bytes (RFC 8742), each as it is encoded.

    An item is `bytes`, or a memoryview if `data` is one: then nothing is copied. Each is found when it is asked for, and
    what follows it isn't read yet. `data` may have more than 2**30 bytes. `depth` is the maximum nesting depth.

        >>> import cborn
        >>> [item.hex() for item in cborn.items(bytes.fromhex("01820203" "6161"))]
        ['01', '820203', '6161']

    The iterator raises CbornError if no well-formed item is next, with the offset in `data`; a validity error is accepted.
    A call raises TypeError or ValueError for an invalid argument, and either raises MemoryError.
    """
    lent = data.cast("B") if isinstance(data, memoryview) else data
    _cborn.item_at(lent, None, depth)  # a wrong argument raises here, and not at the first item
    return _items(lent, depth)


def _items(data: ReadableBuffer, depth: int) -> Iterator[typing.Any]:
    at = 0
    item = _cborn.item_at(data, at, depth)
    while item is not None:
        yield item
        at += len(item)
        item = _cborn.item_at(data, at, depth)


def stack(depth: int = 128) -> int:
    """Return the most bytes of stack that a call with this depth takes, as measured: CBORN_STACK of cborn.h."""
    return 20480 + 480 * depth


def version() -> str:
    """Return the version of the library. After a release the source has that of the next release."""
    number = _cborn.version()
    return f"{number >> 16}.{number >> 8 & 255}.{number & 255}"


__version__: typing.Final[str] = "0.6.0.dev0"


def __dir__() -> list[str]:
    return sorted(__all__)
