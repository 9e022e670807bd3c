#!/usr/bin/env python3
"""Make the files that the bench runs on.

    corpus.py FOLDER

What they hold is the same each time: BYTES as NAME.cbor, TEXTS as NAME.json, and small-N.cbor of each size of SMALL.
"""
import json
import pathlib
import random
import sys

sys.path.append(str(pathlib.Path(__file__).resolve().parent.parent / "tests"))

from reading import head

SEED = 20240208
MB = 1_000_000


def text(words):
    data = words.encode()
    return head(3, len(data)) + data


def fill(size, make):
    """Pieces until they are of this size together."""
    pieces, total = [], 0
    while total < size:
        piece = make()
        pieces.append(piece)
        total += len(piece)
    return pieces


def array(pieces):
    return head(4, len(pieces)) + b"".join(pieces)


def integer(rng):
    n = rng.getrandbits(rng.choice((4, 8, 8, 14, 24, 32, 50, 64)))
    return head(rng.choice((0, 0, 1)), n, (0, 1, 2, 4, 8)[rng.randrange(5) if rng.random() < 0.1 else 0])


def record(rng):
    names = [f"{word}{n}" for n, word in enumerate(("id", "name", "kind", "count", "place") * 4)]
    words = ("amber", "birch", "cedar", "délta", "elm", "fir", "größe", "hazel")
    pairs = [(text(name), head(0, rng.getrandbits(20)) if n % 2 else text(rng.choice(words))) for n, name in enumerate(names)]
    rng.shuffle(pairs)
    return head(5, len(pairs)) + b"".join(key + value for key, value in pairs)


def string(rng):
    data = rng.randbytes(rng.randrange(2_000, 60_000))
    if rng.random() < 0.5:
        return head(2, len(data)) + data
    words = data.hex().encode()
    if rng.random() < 0.25:
        parts = [words[i : i + 4_000] for i in range(0, len(words), 4_000)]
        return b"\x7f" + b"".join(head(3, len(part)) + part for part in parts) + b"\xff"
    return head(3, len(words)) + words


def nest(rng):
    inner = head(0, rng.getrandbits(16))
    levels = ((b"\x82", b"\x01"), (b"\x9f", b"\xff"), (b"\xa1\x01", b""), (b"\xbf\x61a", b"\xff"))
    for _ in range(97):
        opening, closing = levels[rng.randrange(4)]
        inner = opening + inner + closing
    return inner


def keys(rng, count):
    names = list(range(count))
    rng.shuffle(names)
    pairs = [(head(0, n) if n % 2 else text(f"key-{n:06}")) + head(0, n) for n in names]
    return head(5, count) + b"".join(pairs)


def tagged(rng, count):
    def make(n):
        body = head(5, 2) + head(0, 4) + head(2, 16) + rng.randbytes(16) + head(0, 1) + head(1, rng.randrange(40))
        return head(6, rng.choice((18, 61, 1000))) + head(4, 2) + body + head(0, n)

    return b"".join(make(n) for n in range(count))


def written_record(rng):
    word = lambda: "".join(rng.choices("abcdefghijklmnopqrstuvwxyz", k=rng.randint(3, 9)))
    names = list(dict.fromkeys(word() for _ in range(20)))
    return "{" + ",".join(f'"{name}":{rng.randrange(1 << rng.randrange(1, 40))}' for name in names) + "}"


def written_nest(rng):
    depth = rng.randint(20, 90)
    return "[" * depth + str(rng.randrange(1000)) + "]" * depth


def small(rng, size):
    """A record like those of `records`, filled up by a byte string."""
    if size == 7:
        return bytes.fromhex("98021801580161")
    made = fill(size - 200, lambda: record(rng)) if size > 1000 else []
    last = head(5, 3) + text("id") + head(0, 70_000) + text("alg") + head(1, 6) + text("key")
    front = head(4, len(made) + 1) + b"".join(made) + last
    rest = size - len(front)
    width = 1 if rest < 26 else 2 if rest < 258 else 3
    return front + head(2, rest - width) + rng.randbytes(rest - width)


# bytes of one array, of one map, and of a sequence
BYTES = {
    "integers": lambda rng: array(fill(16 * MB, lambda: integer(rng))),  # of mixed widths, a tenth of them wider than needed
    "records": lambda rng: array(fill(16 * MB, lambda: record(rng))),  # with 20 short text keys in random order
    "strings": lambda rng: array(fill(32 * MB, lambda: string(rng))),  # long ones, some in chunks
    "nests": lambda rng: array(fill(8 * MB, lambda: nest(rng))),  # of 97 levels, about half of them of indefinite length
    "keys": lambda rng: keys(rng, 200_000),  # shuffled, 2 MB
    "tagged": lambda rng: tagged(rng, 200_000),  # small items, 6 MB
}
# texts that are both JSON and diagnostic notation: one array of 10 MB each
TEXTS = {
    "integers": lambda rng: str(rng.choice((1, 1, 1, -1)) * rng.randrange(1 << rng.randrange(1, 50))),  # of 1 to 15 digits
    "short": lambda rng: rng.choice(("1", "22", '"a"', '"bcd"', "true", "[]", "{}", "[7]", "null")),
    "records": written_record,  # with some 20 short text keys in random order
    "nests": written_nest,  # of 20 to 90 arrays
    # of 8,000 characters, a fifth of which have to be escaped
    "strings": lambda rng: json.dumps("".join(rng.choices('abc def,ghi"\\\n', k=400)) * 20),
}
SMALL = (7, 100, 10_000)


def main():
    folder = pathlib.Path(sys.argv[1])
    folder.mkdir(parents=True, exist_ok=True)
    seeded = lambda name: random.Random(f"{SEED}{name}")
    for name, make in BYTES.items():
        (folder / f"{name}.cbor").write_bytes(make(seeded(name)))
    for name, make in TEXTS.items():
        rng = seeded(f"{name}.json")
        items = "".join(fill(10 * MB, lambda: make(rng) + ","))
        (folder / f"{name}.json").write_text(f"[{items[:-1]}]", encoding="utf-8")
    for size in SMALL:
        (folder / f"small-{size}.cbor").write_bytes(small(seeded(size), size))


if __name__ == "__main__":
    main()
