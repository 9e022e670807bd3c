#!/usr/bin/env python3
"""Draw the tables of docs/PERFORMANCE.md as SVG, under docs/pictures.

    pictures.py           draw all of them (matplotlib draws: Debian's package python3-matplotlib), and docs/pictures/ways.dot
                          (dot of Debian's package graphviz)
    pictures.py --check   whether each was drawn from the tables as they stand now; needs nothing but Python

The figures are those of the document, so a picture follows what `--into` puts there. A picture keeps the checksum of its
tables and of this script.
"""
import hashlib
import pathlib
import re
import shutil
import subprocess
import sys

ROOT = pathlib.Path(__file__).resolve().parent.parent
DEBIAN = "/usr/bin/python3"
PICTURES = ROOT / "docs/pictures"
LABELS = {
    "ciborium-ll, a loop": "a loop over ciborium-ll",
    "serde_cbor": "serde_cbor (Rust)",
    "fxamacker/cbor": "fxamacker/cbor (Go)",
    "cbor2": "cbor2 (Python)",
    "cborn check, of what that wrote": "cborn check, of what normalise wrote",
}
# for each key a marker and a colour, which people who don't see all colours tell apart
LOOKS = {
    "cborn normalise": ("o", "#0072b2"),
    "cborn check": ("o", "#0072b2"),
    "cborn check, of what normalise wrote": ("s", "#56b4e9"),
    "cborn show": ("D", "#000000"),
    "a loop over ciborium-ll": ("^", "#d55e00"),
    "serde_cbor (Rust)": ("v", "#009e73"),
    "fxamacker/cbor (Go)": ("P", "#cc79a7"),
    "cbor2 (Python)": ("X", "#e69f00"),
}
OTHER = ("x", "#777777")


def lines_of(name):
    """The lines of a table of the document, between its marks."""
    text = (ROOT / "docs/PERFORMANCE.md").read_text()
    return text.partition(f"<!-- begin {name} -->")[2].partition(f"<!-- end {name} -->")[0].strip().splitlines()


def table(name):
    """The columns of a table, and its rows: a name, and for each column its two numbers, or none where it has no such."""
    head, _, *rows = ([cell.strip() for cell in line.strip("| ").split(" | ")] for line in lines_of(name))
    return head[1:], {cells[0]: [two(cell) for cell in cells[1:]] for cells in rows if "times the" not in cells[0]}


def two(cell):
    found = re.fullmatch(r"~?([\d.,]+)/([\d.,]+)", cell)
    return found.groups() if found else None


def number(text):
    return float(text.replace(",", ""))


def label(name):
    """The name of a row without its order, as the key of a picture has it."""
    plain = re.sub(r", (bytewise|length-first|normalise)$", "", name).replace("`", "")
    return LABELS.get(plain, plain)


def look(name):
    return LOOKS.get(label(name), OTHER)


def mark(names):
    """What tells that a picture is of these tables, drawn by this script."""
    text = "\n".join(line for name in names for line in lines_of(name)) + pathlib.Path(__file__).read_text()
    return "drawn from tables " + hashlib.sha256(text.encode()).hexdigest()


def dots(axes, columns, rows, at, unit, title):
    """A dot for each cell, side by side in a group for each column, on a logarithmic axis. `at` is 0 for the first number of a cell and 1 for the second."""
    wide = 0.84 / len(rows)
    for index, (name, cells) in enumerate(rows.items()):
        marker, colour = look(name)
        found = [(place + (index - (len(rows) - 1) / 2) * wide, cell[at]) for place, cell in enumerate(cells) if cell]
        axes.scatter([place for place, _ in found], [number(it) for _, it in found], s=22, marker=marker, color=colour, label=label(name))
        for place, it in found:
            axes.annotate(it, (place, number(it)), textcoords="offset points", xytext=(0, 5), ha="center", fontsize=6)
    axes.set_yscale("log")
    axes.set_ylim(top=axes.get_ylim()[1] * 1.5)
    axes.set_xticks(range(len(columns)), columns)
    axes.set_ylabel(unit)
    axes.set_title(title, fontsize=10, loc="left")
    axes.grid(axis="y", color="#dddddd", linewidth=0.6)
    axes.set_axisbelow(True)


def chosen(rows, wanted):
    """The rows of these names, in this order."""
    return {name: rows[name] for name in wanted}


def beside_peers(pyplot, command):
    """Speed and memory of a command beside its peers."""
    columns, rows = table(command)
    orders = {label(name): name for name in reversed(rows) if "`" not in name}
    rows = chosen(rows, [next(iter(rows)), *reversed(orders.values())])
    figure, (upper, lower) = pyplot.subplots(2, 1, figsize=(8, 7.2))
    dots(upper, columns, rows, 0, "MB of input a second", f"{command}: speed, logarithmic axis (more is better)")
    dots(lower, columns, rows, 1, "MB, peak of the process", f"{command}: memory, logarithmic axis (less is better)")
    upper.legend(fontsize=8, ncols=3, loc="lower center", bbox_to_anchor=(0.5, 1.1), frameon=False)
    return figure


def growth(pyplot):
    """Time and memory from the smallest input to the largest, on logarithmic axes: a picture for each kind of input."""
    columns, rows = table("growth")
    sizes = [number(column.split()[0]) for column in columns]
    kinds = list(dict.fromkeys(name.partition(":")[0] for name in rows))
    figure, grid = pyplot.subplots(2, len(kinds), figsize=(9.5, 5.6), sharex=True, sharey="row")
    for place, kind in enumerate(kinds):
        mine = {name.partition(": ")[2]: cells for name, cells in rows.items() if name.startswith(f"{kind}: ")}
        for name, cells in mine.items():
            marker, colour = look(name)
            for at, axes in enumerate(grid[:, place]):
                points = [(size, number(cell[at])) for size, cell in zip(sizes, cells) if cell]
                axes.plot(*zip(*points), marker=marker, markersize=4, linewidth=1.4, color=colour, label=label(name))
        for axes in grid[:, place]:
            axes.set_xscale("log")
            axes.set_yscale("log")
            axes.grid(color="#dddddd", linewidth=0.6)
        grid[0, place].set_title(kind, fontsize=10)
        grid[1, place].set_xlabel("input, MB")
        grid[1, place].set_xticks(sizes, [f"{size:,.0f}" for size in sizes])
        grid[1, place].minorticks_off()
    grid[0, 0].set_ylabel("time, s")
    grid[1, 0].set_ylabel("memory, MB, peak")
    handles, names = grid[0, 0].get_legend_handles_labels()
    figure.suptitle("Time and memory by the size of the input, logarithmic axes", fontsize=10)
    figure.legend(handles, names, fontsize=8, ncols=3, loc="upper center", bbox_to_anchor=(0.5, 0.96), frameon=False)
    figure.tight_layout(rect=(0, 0, 1, 0.9))
    return figure


# each picture, the tables that it is drawn from, and what draws it
DRAWN = {
    "normalise.svg": (["normalise"], lambda pyplot: beside_peers(pyplot, "normalise")),
    "check.svg": (["check"], lambda pyplot: beside_peers(pyplot, "check")),
    "growth.svg": (["growth"], growth),
}


def draw_ways():
    """The way of an input, which is a graph."""
    if shutil.which("dot") is None:
        print("the way of an input isn't drawn anew: dot isn't there (Debian's package graphviz)")
        return
    made = PICTURES / "ways.svg"
    subprocess.run(["dot", "-Tsvg", str(made.with_suffix(".dot")), "-o", str(made)], check=True)
    print(made)


def draw():
    draw_ways()
    try:
        import matplotlib
    except ImportError:
        # Debian's packages serve its own interpreter
        if pathlib.Path(DEBIAN).exists() and pathlib.Path(sys.executable).resolve() != pathlib.Path(DEBIAN).resolve():
            return subprocess.run([DEBIAN, __file__], check=False).returncode
        print(f"no picture is drawn: {sys.executable} has no matplotlib (Debian's package python3-matplotlib)")
        return 0
    matplotlib.use("svg")
    matplotlib.rcParams.update({"svg.hashsalt": "cborn", "font.size": 9, "axes.spines.top": False, "axes.spines.right": False})
    from matplotlib import pyplot

    PICTURES.mkdir(exist_ok=True)
    for name, (tables, drawn) in DRAWN.items():
        figure = drawn(pyplot)
        about = {"Date": None, "Creator": None, "Description": mark(tables)}
        figure.savefig(PICTURES / name, facecolor="white", bbox_inches="tight", metadata=about)
        pyplot.close(figure)
        print(PICTURES / name)
    return 0


def check():
    stale = [name for name, (tables, _) in DRAWN.items() if not is_fresh(PICTURES / name, tables)]
    for name in stale:
        print(f"docs/pictures/{name} isn't of the tables as they stand: make pictures")
    print(f"{len(DRAWN) - len(stale)} pictures are of their tables, {len(stale)} failed")
    return 1 if stale else 0


def is_fresh(picture, tables):
    return picture.exists() and mark(tables) in picture.read_text()


if __name__ == "__main__":
    sys.exit(check() if sys.argv[1:] == ["--check"] else draw())
