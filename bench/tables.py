#!/usr/bin/env python3
"""Measure the program beside its peers, or alone, and print the tables of docs/PERFORMANCE.md.

    tables.py PROGRAM CORPUS_FOLDER [--only NAMES] [--alone] [--best N] [--cpu] [--into FILE] [--temporary FOLDER]

NAMES are of: machine, normalise, check, compare, show, texts, small, growth; all but growth by default.
A cell is MB of input a second and the peak memory in MB, best of N; with --cpu time is that of the processor, user and
system, which says more on a machine that is shared. `~` stands at an output of other bytes than the program's.
With --into each table takes the place of what stands between `<!-- begin NAME -->` and `<!-- end NAME -->`.
`growth` makes inputs from 1 MB up to 1,000, and ends a run that wants more than 8 GB.
"""
import argparse
import dataclasses
import datetime
import os
import pathlib
import platform
import subprocess
import sys
import tempfile
import typing

import corpus
import grown
import measuring
import peers

LENGTH_FIRST = "length-first"
# what a cell says of a run that failed, by its status
FAILED = {2: "refused", -9: "ended", 137: "ended"}
# how much memory a run has at most where inputs grow
MEMORY_GB = 8


def megabytes(run, form=",.0f"):
    return format(run.peak / 1e6, form) if run.peak else "?"


def table(corner, columns, rows):
    """A table in Markdown: a row is its name and its cells."""
    lines = [f"| {corner} | " + " | ".join(columns) + " |", "|---" + "|--:" * len(columns) + "|"]
    return lines + [f"| {name} | " + " | ".join(cells) + " |" for name, cells in rows]


@dataclasses.dataclass
class Call:
    """A row: for a file the words and what is read; whether it is a peer's, beside the first row; whose bytes it is to write."""

    name: str
    made: typing.Callable
    is_rival: bool = False
    same_as: str | None = None


class Bench:
    """The program, its peers and the files, and how runs are made."""

    def __init__(self, given, folder):
        self.given = given
        self.program = str(given.program.resolve())
        self.peers = [] if given.alone else peers.all_built()
        self.folder = pathlib.Path(folder)
        self.sink, self.again = self.folder / "out", self.folder / "again"
        self.bytes = [given.corpus / f"{name}.cbor" for name in corpus.BYTES]
        self.texts = [given.corpus / f"{name}.json" for name in corpus.TEXTS]

    def run(self, call, source, sink=None, **options):
        words = (call, source, sink or self.sink, self.given.best, self.given.cpu)
        return measuring.best(*words, environment=peers.ENVIRONMENT, **options)

    def cell(self, run, size, expected=None):
        if run.status != 0:
            return FAILED.get(run.status, f"status {run.status}")
        mark = "~" if expected is not None and run.digest != expected else ""
        rate = size / 1e6 / run.seconds(self.given.cpu)
        return f"{mark}{rate:.{0 if rate >= 9.95 else 1}f}/{megabytes(run)}"

    def beside(self, corner, files, calls, sizes=None):
        """A row for each call, and how many times as quick as the quickest peer the first one is."""
        sizes = sizes or {file: file.stat().st_size for file in files}
        digests, speeds, rows = {}, {}, []
        for call in calls:
            cells = []
            for file in files:
                run = self.run(*call.made(file))
                digests[call.name, file] = run.digest
                cells.append(self.cell(run, sizes[file], digests.get((call.same_as, file))))
                if run.status == 0:
                    speeds[call.name, file] = sizes[file] / run.seconds(self.given.cpu)
                print(corner, call.name, file.stem, cells[-1], file=sys.stderr)
            rows.append((call.name, cells))
        rows.append(("times the quickest peer", [ratio(calls, speeds, file) for file in files]))
        return table(corner, [f"{file.stem} {file.stat().st_size / 1e6:.0f} MB" for file in files], rows)


def ratio(calls, speeds, file):
    others = [speeds[call.name, file] for call in calls if call.is_rival and (call.name, file) in speeds]
    mine = speeds.get((calls[0].name, file))
    return f"{mine / max(others):.1f}" if others and mine else ""


def of_machine(bench):
    """One line: when, on what, and the packages."""
    rust = "librust-ciborium-ll-dev librust-serde-cbor-dev librust-serde-json-dev"
    names = f"{rust} golang-github-fxamacker-cbor-dev python3-cbor2 qtbase5-dev jq"
    asked = ["dpkg-query", "-W", "-f", "${Package} ${Version}; ", *names.split()]
    packages = subprocess.run(asked, capture_output=True, text=True, check=False).stdout.strip("; ")
    kind = "processor time, user and system" if bench.given.cpu else "wall time"
    model = [line.split(":", 1)[1].strip() for line in open("/proc/cpuinfo", encoding="utf-8") if line.startswith("model name")]
    processor = f"{os.cpu_count()} cores of {model[0] if model else platform.machine()}"
    return [f"{datetime.date.today()}, {processor}, {kind}, best of {bench.given.best}. Packages: {packages}."]


def plain(name, words, **more):
    """A call that reads the file itself."""
    return Call(name, lambda file: (words, file), **more)


def own(bench, words):
    return plain(f"`cborn {words}`", [bench.program, *words.split()])


def of_normalise(bench):
    names = {"bytewise": "`cborn normalise`", LENGTH_FIRST: f"`cborn normalise --order {LENGTH_FIRST}`"}
    calls = [plain(name, [bench.program, "normalise", "--order", order]) for order, name in names.items()]
    for peer in bench.peers:
        for order in peer.orders:
            words = [*peer.call, "normalise", order]
            calls.append(plain(f"{peer.name}, {order}", words, is_rival=order == "bytewise", same_as=names[order]))
    return bench.beside("normalise", bench.bytes, calls)


def normalised(bench, file, order):
    """The deterministic encoding of a file, made by the program."""
    made = bench.folder / f"{file.stem}-{order}.cbor"
    if not made.exists():
        measuring.once([bench.program, "normalise", "--order", order], file, made)
    return made


def first_orders(bench):
    """The peers that sort keys, each with its first order."""
    return [(peer, peer.orders[0]) for peer in bench.peers if peer.orders]


def of_check(bench):
    def of_deterministic(name, words, order, **more):
        return Call(name, lambda file: (words, normalised(bench, file, order)), **more)

    calls = [
        of_deterministic("`cborn check`", [bench.program, "check"], "bytewise"),
        of_deterministic("`cborn normalise`, of the same", [bench.program, "normalise"], "bytewise"),
    ]
    for peer, order in first_orders(bench):
        words = [*peer.call, "check", order]
        calls.append(of_deterministic(f"{peer.name}, {order}", words, order, is_rival=True, same_as=calls[0].name))
    sizes = {file: normalised(bench, file, "bytewise").stat().st_size for file in bench.bytes}
    return bench.beside("check", bench.bytes, calls, sizes)


def of_compare(bench):
    def of_two(name, words, **more):
        two = lambda file: [str(file), str(normalised(bench, file, "bytewise"))]
        return Call(name, lambda file: ([*words, *two(file)], pathlib.Path(os.devnull)), **more)

    calls = [of_two("`cborn compare`", [bench.program, "compare"])]
    for peer, order in first_orders(bench):
        calls.append(of_two(peer.name, [*peer.call, "compare", order], is_rival=True, same_as=calls[0].name))
    sizes = {file: file.stat().st_size + normalised(bench, file, "bytewise").stat().st_size for file in bench.bytes}
    return bench.beside("compare", bench.bytes, calls, sizes)


def of_show(bench):
    calls = [own(bench, words) for words in ("show", "normalise --to notation", "show --to wire")]
    calls += [plain(peer.name, peer.call, is_rival=True) for peer in bench.peers if peer.shows]
    return bench.beside("show", bench.bytes, calls)


def of_texts(bench):
    calls = [own(bench, words) for words in ("normalise --from notation", "show --from notation --to wire")]
    for peer in (it for it in bench.peers if it.texts is not None):
        more = {"is_rival": True, "same_as": calls[0].name} if "cbor" in peer.name else {}
        calls.append(plain(peer.name, [*peer.call, *peer.texts], **more))
    return bench.beside("texts", bench.texts, calls)


def of_small(bench):
    files = [bench.given.corpus / f"small-{size}.cbor" for size in corpus.SMALL]
    calls = [("a program that does nothing", ["/bin/true"])]
    calls += [(f"`cborn {command}`", [bench.program, command]) for command in ("normalise", "check", "show")]
    calls += [(f"{peer.name}, normalise", [*peer.call, "normalise"]) for peer in bench.peers if peer.orders]
    rows = []
    for name, call in calls:
        cells = []
        for file in files:
            times = measuring.many(call, file, 30 if "cbor2" in name else 200, peers.ENVIRONMENT)
            cells.append(f"{1000 * times[bench.given.cpu]:.2f}/{megabytes(bench.run(call, file), '.1f')}")
        rows.append((name, cells))
    return table("ms of a process / MB", [f"{size:,} bytes" for size in corpus.SMALL], rows)


def of_growth(bench):
    """Seconds and peak MB of each command at each size."""
    sizes, quick = (1, 10, 100, 1000), [peer for peer, _ in first_orders(bench)[:2]]
    rows = []
    for kind in grown.KINDS:
        found = [growth_at(bench, kind, size, quick) for size in sizes]
        rows += [(name, [cells[name] for cells in found]) for name in found[0]]
    return table("s / MB of memory", [f"{size:,} MB" for size in sizes], rows)


def growth_at(bench, kind, size, quick):
    """The cells of one kind of input at one size."""
    file = bench.folder / "grown.cbor"
    grown.make(kind, size, file)
    program, cells = bench.program, {}
    calls = [
        ("`cborn normalise`", [program, "normalise"], file, bench.again),
        ("`cborn check`, of what that wrote", [program, "check"], bench.again, bench.sink),
        ("`cborn show`", [program, "show"], file, bench.sink),
        *((f"{peer.name}, normalise", [*peer.call, "normalise"], file, bench.sink) for peer in quick),
    ]
    for name, words, source, sink in calls:
        if not source.stat().st_size:  # what was to write it had no room
            cells[f"{kind}: {name}"] = ""
            continue
        run = bench.run(words, source, sink, memory=MEMORY_GB * 10**9, limit=600)
        took = f"{run.seconds(bench.given.cpu):.2f}/{megabytes(run)}"
        cells[f"{kind}: {name}"] = took if run.status == 0 else f"more than {MEMORY_GB} GB"
        print("growth", kind, size, name, cells[f"{kind}: {name}"], file=sys.stderr)
    for made in (file, bench.again, bench.sink):
        made.unlink(missing_ok=True)
    return cells


MAKERS = (of_machine, of_normalise, of_check, of_compare, of_show, of_texts, of_small, of_growth)
TABLES = {make.__name__.removeprefix("of_"): make for make in MAKERS}


def put_into(path, name, lines):
    """The lines take the place of what stands between the two marks."""
    begin, end = f"<!-- begin {name} -->\n", f"<!-- end {name} -->"
    before, _, rest = path.read_text().partition(begin)
    _, found, after = rest.partition(end)
    if not found:
        sys.exit(f"{path} has no place for {name}")
    path.write_text(before + begin + "\n".join(["", *lines, "", end]) + after)


def main():
    words = argparse.ArgumentParser(description=__doc__, formatter_class=argparse.RawDescriptionHelpFormatter)
    words.add_argument("program", type=pathlib.Path)
    words.add_argument("corpus", type=pathlib.Path)
    words.add_argument("--only", default=",".join(name for name in TABLES if name != "growth"))
    words.add_argument("--alone", action="store_true")
    words.add_argument("--best", type=int, default=3)
    words.add_argument("--cpu", action="store_true")
    words.add_argument("--into", type=pathlib.Path)
    words.add_argument("--temporary", type=pathlib.Path)
    given = words.parse_args()
    if measuring.needs_time():
        print(measuring.needs_time(), file=sys.stderr)
    with tempfile.TemporaryDirectory(dir=given.temporary) as folder:
        bench = Bench(given, folder)
        for name in given.only.split(","):
            lines = TABLES[name](bench)
            print("\n".join([f"\n## {name}\n", *lines]), flush=True)
            if given.into:
                put_into(given.into, name, lines)


if __name__ == "__main__":
    main()
