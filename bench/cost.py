#!/usr/bin/env python3
"""What hostile bytes and texts cost: peak memory over input and output, and time at two sizes.

    cost.py PROGRAM [--mb N] [--only WORDS] [--cpu] [--memory]

Each shape, of bytes and of texts, is made at a quarter and at the whole of N MB (16). For each command: the peak memory,
less 3 MB that the process itself has, as a multiple of input and output together; MB of input a second; and the status.
Ends with status 1 where a multiple is above MOST (2.5; more for what MORE names),
where time grows by more than 1.6 times as much as the input, or where a run was ended. With --memory no time is judged.
"""
import argparse
import os
import pathlib
import sys
import tempfile

import measuring
from corpus import MB, head

OWN = 3_000_000
GREAT_MAPS = ("map of integers", "map, repeated key last")
# what is refused at its end, when `show` has written the text of what comes before
REFUSED_LATE = (
    "flat, bad text last", "cut array", "array with no break", "flat, too deep last", "keys in keys, bad text last",
    "keys in keys, long heads, bad text after", "map out of order, bad text after",
    "great pair out of order, bad text after", "text in chunks, bad one last",
)
# maps whose pairs are copied while they are arranged, where an input is judged
ARRANGED = (
    "map out of order, bad text after", "key is a map out of order",
    "great pair out of order, bad text after", "key is a map with a great pair",
)
MOST = 2.5
# what is known to take more than MOST
MORE = {
    **{(name, command): 3 for name in ARRANGED for command in ("normalise", "check", "to notation")},
    **{(name, command): 6 for name in GREAT_MAPS for command in ("normalise", "show", "to notation")},
    **{(name, "check"): 7.5 for name in GREAT_MAPS},
    **{(name, "show"): 5 for name in REFUSED_LATE},
}
COMMANDS = {"normalise": ["normalise"], "check": ["check"], "show": ["show"], "to notation": ["normalise", "--to", "notation"]}
TEXT_COMMANDS = {
    "normalise": ["normalise", "--from", "notation"],
    "profile 2": ["normalise", "--from", "notation-2"],
    "show": ["show", "--from", "notation"],
    "compare": ["compare", "--from-a", "notation", "/dev/stdin", os.devnull],
}


def shapes(n):
    """Inputs of about n bytes, each by its name."""
    keys = list(dict.fromkeys(head(0, i * 2654435761 % (1 << 32)) for i in range(n // 6)))
    pairs = b"".join(key + b"\x00" for key in keys)
    return {
        "flat integers": head(4, n) + b"\x01" * n,
        "flat, bad text last": head(4, n) + b"\x01" * (n - 1) + b"\x61\xff",
        "sequence of integers": b"\x01" * n,
        "empty arrays": head(4, n) + b"\x80" * n,
        "short strings": head(4, n // 4) + b"\x63abc" * (n // 4),
        "chunks of one byte": b"\x5f" + b"\x41a" * (n // 2) + b"\xff",
        "cut array": head(4, n + 1) + b"\x01" * n,
        "array with no break": b"\x9f" + b"\x01" * n,
        "flat, too deep last": head(4, n) + b"\x01" * (n - 1) + b"\x81" * 129 + b"\x00",
        "map of integers": head(5, len(keys)) + pairs,
        "map, repeated key last": head(5, len(keys) + 1) + pairs + keys[0] + b"\x00",
        "nests": (b"\x81" * 100 + b"\x00") * (n // 101),
        "chunked bignum last": head(4, n) + b"\x01" * (n - 1) + b"\xc2\x5f\x41\x01\xff",
        **nests_of_keys(n),
        **maps_out_of_order(n),
        "text in chunks, bad one last": b"\x7f" + b"\x61a" * (n // 2) + b"\x61\xff\xff",
        "nest, repeated key last": (b"\x81" * 100 + b"\xa2\x00\x00\x01\x00") * (n // 105) + b"\x81" * 100 + b"\xa2\x00\x00\x00\x00",
    }


def nests_of_keys(n):
    """Keys of about n bytes, 100 maps in one another: each map is a key of the one around it."""
    integers = head(4, n) + b"\x01" * n
    long = b"\xb8\x01" * 100 + integers + b"\x00" * 100
    return {
        "keys in keys, long head last": b"\xa1" * 100 + b"\x82" + integers + b"\x18\x01" + b"\x00" * 100,
        "keys in keys, long heads": long,
        "keys in keys, indefinite lengths": b"\xbf" * 100 + integers + b"\x00\xff" * 100,
        "keys in keys, bad text last": b"\xa1" * 100 + b"\x82" + integers + b"\x61\xff" + b"\x00" * 100,
        "keys in keys, long heads, bad text after": b"\xa1\x82" + long + b"\x61\xff\x00",
        "keys in keys, repeated key behind": b"\xa1\x82" + long + b"\xa2\x00\x00\x00\x00\x00",
        "second keys in second keys, long head last": b"\xa2\x00\x00" * 100 + b"\x82" + integers + b"\x18\x01" + b"\x00" * 100,
    }


def maps_out_of_order(n):
    """Maps of about n bytes whose keys fall, of pairs of 1 KB and of one that is nearly all, where nothing of them is written."""
    count = n // 1000
    row = head(4, 990) + b"\x01" * 990
    even = head(5, count) + b"".join(head(0, key) + row for key in range(count, 0, -1))
    uneven = head(5, 2) + b"\x01" + head(4, n) + b"\x01" * n + b"\x00\x00"
    return {
        "map out of order, bad text after": b"\x82" + even + b"\x61\xff",
        "key is a map out of order": b"\xa1" + even + b"\x00",
        "great pair out of order, bad text after": b"\x82" + uneven + b"\x61\xff",
        "key is a map with a great pair": b"\xa1" + uneven + b"\x00",
    }


def texts(n):
    """Texts of about n bytes, each by its name. All but the last are refused at their end."""
    row = b"[" + b"1," * (n // 2)
    return {
        "text, float last": row + b"2.5]",
        "text, end missing": row + b"1",
        "text, narrow width last": row + b"300_0]",
        "text, indicator last": row + b'"a"_0 "b"_]',
        "text, mixed chunks last": row + b"(_ 'a', \"b\")]",
        "text, repeated key last": row + b"{1:1,1:2}]",
        "text, bad bignum last": row + b"2(1)]",
        "text of maps, repeated key last": b"[" + b"{1:1}," * (n // 6) + b"{1:1,1:2}]",
        "text of maps, float last": b"[" + b"{1:1}," * (n // 6) + b"1e1]",
        "embedded items, float last": b"<<" + b"1," * (n // 2) + b"2.5>>",
        "embedded array, narrow width behind": b"<<[" + b"1," * (n // 2) + b"1]>>, 300_0",
        "embedded items, narrow width last": b"<<" + b"1," * (n // 2) + b"300_0>>",
        "embedded maps, narrow width of the string": b"<<" + b"{1:1}," * (n // 6) + b"1>>_0",
        "text, wide heads": b"[" + b"1_3," * (n // 4) + b"1]",
    }


def cost(run, size):
    return max(0, run.peak - OWN) / (size + run.size)


def excess(name, command, small, great, given):
    """What is too much in two runs, each with its input's size."""
    (first, quarter), (last, whole) = small, great
    most = max(MORE.get((name, command), 0), MOST)
    if last.status not in (0, 1, 2):
        yield f"{name}: {command} ended with status {last.status}"
    if cost(last, whole) > most:
        yield f"{name}: {command} takes {cost(last, whole):.1f} times input and output"
    if given.memory:
        return
    grows = last.seconds(given.cpu) / first.seconds(given.cpu)
    if last.seconds(given.cpu) > 0.2 and grows > 1.6 * whole / quarter:
        yield f"{name}: {command} grows {grows:.1f} times for {whole / quarter:.1f} times the input"


def main():
    words = argparse.ArgumentParser(description=__doc__, formatter_class=argparse.RawDescriptionHelpFormatter)
    words.add_argument("program", type=pathlib.Path)
    words.add_argument("--mb", type=float, default=16)
    words.add_argument("--only", default="")
    words.add_argument("--cpu", action="store_true")
    words.add_argument("--memory", action="store_true")
    given = words.parse_args()
    program = str(given.program.resolve())
    if measuring.needs_time() and given.memory:
        # the gate goes on, and its last line says what it left out
        print(measuring.needs_time())
        return
    if measuring.needs_time():
        sys.exit(measuring.needs_time())
    bad = []
    with tempfile.TemporaryDirectory() as folder:
        source, sink = pathlib.Path(folder, "in"), pathlib.Path(folder, "out")
        for inputs, commands in ((shapes, COMMANDS), (texts, TEXT_COMMANDS)):
            small, great = inputs(int(given.mb * MB / 4)), inputs(int(given.mb * MB))
            for name in (name for name in great if given.only in name):
                cells = []
                for command, call in commands.items():
                    runs = []
                    for data in (small[name], great[name]):
                        source.write_bytes(data)
                        runs.append((measuring.once([program, *call], source, sink), len(data)))
                    run, size = runs[1]
                    cells.append(f"{command} {cost(run, size):5.1f}x {size / MB / run.seconds(given.cpu):6.1f} MB/s s{run.status}")
                    bad += excess(name, command, *runs, given)
                print(f"{name:28}| " + " | ".join(cells), flush=True)
    print("\n".join([f"{len(bad)} too much", *bad]) if bad else "all within")
    sys.exit(1 if bad else 0)


if __name__ == "__main__":
    main()
