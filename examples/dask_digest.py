#!/usr/bin/env python3
"""Find equal items in CBOR sequences (RFC 8742) on the workers of a Dask cluster.

    dask_digest.py [--scheduler ADDRESS | --workers N] [--part BYTES] FILE..

A task is a file, or, of one longer than --part, a part of it that ends where an item does. One call of the library
gives the canonical form of a part in notation, with each item on a line, so that equal items are equal lines however
they were spelled. A worker gives the digest (SHA-256) of each line. Digests that occur more than once are printed with
where they occur, each on a line: DIGEST FILE:INDEX FILE:INDEX .., where INDEX counts the items of a file from 0. A last
line has the number of all items, of different items, and the seconds.

With --scheduler every machine needs the files at the same paths, and the packages cborn and distributed. Without it
N worker processes are started on this machine.
"""
import argparse
import collections
import hashlib
import mmap
import os
import time

import cborn
import distributed

SIZE = hashlib.sha256().digest_size


def cut(data, size):
    """Parts of a sequence of at least so many bytes, each of whole items: offset, length, and index of the first item."""
    start = first = at = 0
    for index, item in enumerate(cborn.items(data), 1):
        at += len(item)
        if at - start >= size or at == len(data):
            yield start, at - start, first
            start, first = at, index


def parts(name, size):
    """What of a file is one task each. Only a longer file is cut, since to find where items end takes a loop in Python."""
    length = os.path.getsize(name)
    if length <= size:
        return [(0, length, 0)]
    with open(name, "rb") as file, mmap.mmap(file.fileno(), 0, access=mmap.ACCESS_READ) as data:
        return list(cut(data, size))  # CbornError, if it holds no items


def digests(name, start, length):
    """The digests of the items of a part, one after another."""
    with open(name, "rb") as file:
        file.seek(start)
        lines = cborn.normalise(file.read(length), to=cborn.Kind.NOTATION)
    # a line that ends in a comma is followed by another; in an item no line ends
    return b"".join(hashlib.sha256(line).digest() for line in lines[:-1].split(b",\n") if line)


def main():
    words = argparse.ArgumentParser(description=__doc__, formatter_class=argparse.RawDescriptionHelpFormatter)
    words.add_argument("files", nargs="+")
    words.add_argument("--scheduler")
    words.add_argument("--workers", type=int, default=2)
    words.add_argument("--part", type=int, default=1 << 26)
    given = words.parse_args()
    how = {"address": given.scheduler} if given.scheduler else {
        "n_workers": given.workers, "threads_per_worker": 1, "processes": True, "dashboard_address": None}
    with distributed.Client(**how) as client:
        begun = time.perf_counter()
        cuts = client.gather([client.submit(parts, name, given.part) for name in given.files])
        tasks = {client.submit(digests, name, start, length): (name, first)
                 for name, found in zip(given.files, cuts) for start, length, first in found}
        count, places, repeated = 0, {}, collections.defaultdict(list)
        for task, found in distributed.as_completed(list(tasks), with_results=True):
            name, first = tasks[task]
            count += len(found) // SIZE
            for at in range(0, len(found), SIZE):
                digest, here = found[at : at + SIZE], (name, first + at // SIZE)
                if places.setdefault(digest, here) is not here:
                    repeated[digest].append(here)
        done = time.perf_counter()
    for digest, others in sorted(repeated.items()):
        print(digest.hex(), *(f"{name}:{index}" for name, index in sorted([places[digest], *others])))
    print(f"{count} items, {len(places)} of them different, in {done - begun:.2f} s")


if __name__ == "__main__":
    main()
