#!/usr/bin/env python3
"""Run each line '$ COMMAND' of the README, the guide and the man page, and compare what it prints with the lines below it.
A command that ends with << 'END' goes on to the line END. In the README what goes to standard error has to be told apart:
the lines that begin with 'cborn: ', and those that --explain adds, which begin with two spaces.
Then run the guide's recipes over many files on names that a recipe may trip over: each has to refuse exactly what is to be
refused. Then see whether the man page has the words of each fault of the formats, and whether all that tells a version tells
that of bindings/library.mk.

    documents.py PROGRAM

The commands run in dash (in sh where there is none) and once more in bash, with the program's folder in front of PATH. Those
of one document are typed into one shell, in one folder: what one of them sets or makes is there for the next.
"""
import collections
import itertools
import os
import pathlib
import re
import shlex
import shutil
import subprocess
import sys
import tempfile

import shared

SHELLS = ("dash" if shutil.which("dash") else "sh", "bash")
DOCUMENTS = ("README.md", "docs/GUIDE.md", "man/cborn.1")


def lines_of(path):
    """The lines of a document; of a man page those of its examples, as code."""
    text = path.read_text()
    if path.suffix != ".1":
        return text.splitlines()
    shown = text.partition(".nf\n")[2].partition(".fi\n")[0].replace("\\(rs", "\\").replace("\\-", "-")
    return ["    " + line if line else line for line in shown.splitlines()]


# a command, which may have several lines, what it is to print, and the heading above it
Example = collections.namedtuple("Example", "command printed heading")


def examples(path):
    """The commands of a document."""
    command, printed, heading, ends_with = None, [], "", None
    for line in [*lines_of(path), ""]:
        is_code = line.startswith("    ")
        if ends_with is not None:
            command += f"\n{line[4:]}"
            ends_with = None if line[4:] == ends_with else ends_with
            continue
        if command is not None and (not is_code or line.startswith("    $ ")):
            yield Example(command, "".join(printed), heading)
            command = None
        if line.startswith("    $ "):
            command, printed = line[6:], []
            ends_with = (re.findall(r"<< '(\w+)'$", command) or [None])[0]
        elif is_code and command is not None:
            printed.append(line[4:] + "\n")
        elif line.startswith("#"):
            heading = line.lstrip("# ")


MARK = b"\x1e"


def typed(shell, commands, folder, environment, stderr=subprocess.STDOUT):
    """What each of these commands prints, typed one after another into one shell. None for what comes after the shell's end."""
    script = ["mark() { marked=$?; printf '\\036'; return $marked; }", *(f"{command}\nmark" for command in commands)]
    with tempfile.NamedTemporaryFile("w", suffix=".sh") as file:
        file.write("\n".join(script) + "\n")
        file.flush()
        how = {"cwd": folder, "env": environment, "stdin": subprocess.DEVNULL, "stdout": subprocess.PIPE, "stderr": stderr}
        done = subprocess.run([shell, file.name], timeout=300, check=False, **how)
    printed = done.stdout.split(MARK)[:-1]
    return [*printed, *[None] * (len(commands) - len(printed))]


def failed_examples(root, environment):
    """The examples whose commands print something else, and how many were run."""
    count, wrong = 0, []
    # in the README what goes to standard error is told apart
    ways = itertools.product(DOCUMENTS, SHELLS, (False, True))
    for name, shell, is_apart in (it for it in ways if it[0] == "README.md" or not it[2]):
        all_of_it = list(examples(root / name))
        stderr = subprocess.DEVNULL if is_apart else subprocess.STDOUT
        with tempfile.TemporaryDirectory() as folder:
            told = typed(shell, [it.command for it in all_of_it], folder, environment, stderr)
        for it, printed in zip(all_of_it, told):
            lines = it.printed.splitlines(keepends=True)
            wanted = "".join(line for line in lines if not (is_apart and line.startswith(("cborn: ", "  ")))).encode()
            count += 1
            if printed != wanted:
                on = ", on standard output alone" if is_apart else ""
                wrong.append(f"{name}, in {shell}{on}: {it.command}: {printed!r}, not {wanted!r}")
    return count, wrong


# names that are taken for an option, for git's name of a stage or for a pattern, that git or a shell quotes, that end a line
NAMES = (
    "ok.cbor", "-h.cbor", "--one.cbor", "0:ok.cbor", ":ok.cbor", ":!ok.cbor", "*.cbor", "[ok].cbor", "it's.cbor", 'a"b.cbor',
    "a\\b.cbor", "a\\nb.cbor", "a\tb.cbor", "a\nb.cbor", "\n.cbor", " a b .cbor", "$(ok).cbor", "%s.cbor", "{}.cbor",
    "\u00e9.cbor", "of/folders/ok.cbor", "-of/ \n/-h.cbor",
)

# A recipe of the guide: the words with which its last command begins, the folder that it goes over, whether it goes into the
# folders there, what comes before a name, the bytes that it takes and those that it refuses, what it says of these, its status
# then, what is typed before it, and the folder for what it writes
Recipe = collections.namedtuple("Recipe", "heading begins folder is_deep prefix good bad words status before written")
CHECKED = (b"\x01", b"\x18\x01", "offset 0: long head", 1)
NORMALISED = (b"\x18\x01", b"\x1c", "cborn: offset 0: reserved additional information", 123)
RECIPES = (
    Recipe("Check many files", "(cd vectors", "vectors", False, "", *CHECKED, ":", None),
    Recipe("Check many files", "find vectors", "vectors", True, "vectors/", *CHECKED, ":", None),
    Recipe("Check many files", "git -C", "repository", True, "./", *CHECKED, "git -C repository add -A", None),
    Recipe("Many inputs at once", "find in", "in", True, "in/", *NORMALISED, ":", "out"),
)


def answer_of(recipe, refused):
    """What a recipe has to print where one file has to be refused, or none: its lines, and the files of one byte that it wrote."""
    is_met = refused is not None and (recipe.is_deep or "/" not in refused)
    line = f"{recipe.prefix}{refused}: {recipe.words}\n{recipe.status}\n" if is_met else "0\n"
    written = [f"{name}\0".encode() for name in NAMES if name != refused] if recipe.written else []
    return line.encode(), b"".join(sorted(written))


def make_tree(folder, recipe, refused):
    """Makes a file of each name. One of them, or none, is to be refused."""
    for name in NAMES:
        path = folder / name
        path.parent.mkdir(parents=True, exist_ok=True)
        path.write_bytes(recipe.bad if name == refused else recipe.good)


def failed_recipes(root, environment):
    """The recipes of the guide that refuse another file than the one that is to be refused, or write others; and how many runs there are."""
    count, wrong = 0, []
    names = (None, *NAMES)
    guide = list(examples(root / "docs/GUIDE.md"))
    for recipe in RECIPES:
        chapter = [it.command for it in guide if it.heading == recipe.heading]
        last = [command for command in chapter if command.startswith(recipe.begins) and command.endswith("; echo $?")]
        if not last:
            wrong.append(f"docs/GUIDE.md: under {recipe.heading!r} no command that begins with {recipe.begins!r} prints its status")
            continue
        with tempfile.TemporaryDirectory() as top:
            work = pathlib.Path(top, "work")
            work.mkdir()
            commands = [*chapter, f"rm -rf {recipe.folder}/* {recipe.written or ''}"]
            for number, refused in enumerate(names):
                make_tree(pathlib.Path(top, str(number)), recipe, refused)
                written = f"(cd {recipe.written}; find . -type f -size 1c -printf '%P\\0' | LC_ALL=C sort -z)" if recipe.written else ":"
                commands += [f"cp -r ../{number}/. {recipe.folder}; {recipe.before}", last[0], written]
            told = typed(SHELLS[0], commands, work, environment)[len(chapter) + 1:]
        for refused, answer in zip(names, zip(told[1::3], told[2::3])):
            wanted = answer_of(recipe, refused)
            count += 1
            if answer != wanted:
                wrong.append(f"docs/GUIDE.md: {last[0]}: with {refused!r} to be refused: {answer!r}, not {wanted!r}")
    return count, wrong


def untold(root):
    """The words of faults, as docs/FORMATS.md numbers them, that aren't in italics in the two chapters of the man page."""
    page = (root / "man/cborn.1").read_text().replace("\\-", "-")
    chapters = re.findall(r"^\.SH (?:FAULTS|DEFECTS)\n(.*?)^(?=\.SH )", page, re.MULTILINE | re.DOTALL)
    lines = re.findall(r"^\.(I|IR) (.*)", "".join(chapters), re.MULTILINE)
    told = [it for kind, line in lines for it in ([line] if kind == "I" else shlex.split(line)[::2])]
    words = re.findall(r"^\| `0x[0-9a-f]{3}` \| ([^|:,]+?)(?:[:,][^|]*)? \|", (root / "docs/FORMATS.md").read_text(), re.MULTILINE)
    if not words:
        yield "docs/FORMATS.md numbers no fault"
    yield from (f"man/cborn.1: there is no {it}" for it in sorted({*words}.difference(told)))


def other_versions(root):
    """What tells a version other than that of bindings/library.mk, or none."""
    rules = (root / "bindings/library.mk").read_text()
    version, base = re.search(r"^VERSION := (([\d.]+)(?:-dev)?)$", rules, re.MULTILINE).groups()
    number = "0x" + "".join(f"{int(part):02x}" for part in base.split("."))
    is_released = version == base
    python = version.replace("-dev", ".dev0")
    # the archive that the documents name is that of the last release
    last = re.search(r"^## ([\d.]+) \(", (root / "CHANGELOG.md").read_text(), re.MULTILINE).group(1)
    told = {
        "CHANGELOG.md": f"## {version} (" if is_released else "## Unreleased\n",
        "README.md": f"cborn-{last}-linux",
        "docs/LIBRARY.md": f"cborn-{last}-linux",
        "crates/cborn/src/options.rt": f'.version("{version}")',
        "crates/cborn_c/src/lib.rt": f"    {number}\n",
        "include/cborn.h": f"#define CBORN_VERSION {number}\n",
        "man/cborn.1": f'"cborn {version}"',
        "tests/help.table": f"stdout text cborn {version}\\n",
        "bindings/rust/Cargo.toml": f'version = "{version}"',
        "bindings/rust/Cargo.lock": f'version = "{version}"',
        "bindings/python/pyproject.toml": f'version = "{python}"',
        "bindings/python/cborn/__init__.py": f'__version__: typing.Final[str] = "{python}"',
        "bindings/python/test_cborn.py": f'cborn.version(), "{base}"',
    }
    between = {} if is_released else {"README.md": f"calls itself {version}", "include/cborn.h": f"this is {version}."}
    for name, text in (*told.items(), *between.items()):
        if text not in (root / name).read_text():
            yield f"{name} doesn't say {text.strip()}"


def main():
    program = pathlib.Path(sys.argv[1]).resolve()
    root = pathlib.Path(__file__).resolve().parent.parent
    environment = {
        **{name: value for name, value in os.environ.items() if not name.startswith("GIT_")},
        "PATH": f"{program.parent}:{os.environ['PATH']}",
        # git as somebody has it who set nothing but a name
        "GIT_CONFIG_GLOBAL": os.devnull,
        "GIT_CONFIG_NOSYSTEM": "1",
        **{f"GIT_{who}_{what}": "nobody" for who in ("AUTHOR", "COMMITTER") for what in ("NAME", "EMAIL")},
    }
    counts, failed = zip(failed_examples(root, environment), failed_recipes(root, environment))
    wrong, lost = sum(failed, []), [*untold(root), *other_versions(root)]
    return shared.status(all(counts), wrong + lost, f"{sum(counts) - len(wrong)} examples passed")


if __name__ == "__main__":
    sys.exit(main())
