"""Inputs of one kind at any size, for how time and memory grow."""
import array
import itertools
import random

import corpus

ITEMS = {"integers": corpus.integer, "records": corpus.record, "strings": corpus.string}
KINDS = (*ITEMS, "keys")
BLOCK = 2_000_000


def repeated(kind, megabytes, path):
    """One array whose items are those of a megabyte again and again."""
    rng = random.Random(f"{corpus.SEED}{kind} grown")
    pieces = corpus.fill(corpus.MB, lambda: ITEMS[kind](rng))
    with open(path, "wb") as file:
        file.write(corpus.head(4, megabytes * len(pieces)))
        file.writelines(itertools.repeat(b"".join(pieces), megabytes))


def keyed(megabytes, path):
    """One map of pairs of 6 bytes: each key has 32 bits, which are those of a counter with its lowest byte first."""
    count = megabytes * corpus.MB // 6
    with open(path, "wb") as file:
        file.write(corpus.head(5, count))
        for start in range(0, count, BLOCK):
            numbers = array.array("I", range(start, min(start + BLOCK, count))).tobytes()
            pairs = bytearray(6 * (len(numbers) // 4))
            pairs[0::6] = b"\x1a" * (len(numbers) // 4)
            for place in range(4):
                pairs[place + 1 :: 6] = numbers[place::4]
            file.write(pairs)


def make(kind, megabytes, path):
    if kind == "keys":
        keyed(megabytes, path)
    else:
        repeated(kind, megabytes, path)
