#!/usr/bin/env python3
"""Unpack the archive of `make dist` and use it as somebody who has nothing else: no kit, and an empty home.

    try_archive.py ARCHIVE

The program reads its first input, and the examples of docs/LIBRARY.md in the archive are compiled and run, each in
the languages whose tools are there; a line says which aren't. Each has to print what RFC 8949 makes of the input.
"""
import itertools
import os
import pathlib
import re
import subprocess
import sys
import tempfile
import textwrap

sys.path.append(str(pathlib.Path(__file__).resolve().parent.parent / "tests"))

from tools import JNA, is_there

LOOSE, TIGHT = bytes([0x98, 2, 0x18, 1, 0x58, 1, 0x61]), bytes([0x82, 1, 0x41, 0x61])


class Archive:
    """The unpacked archive, and a folder to work in."""

    def __init__(self, archive, folder):
        subprocess.run(["tar", "xf", archive, "-C", folder], check=True)
        (self.top,) = pathlib.Path(folder).iterdir()
        self.work = pathlib.Path(folder, "work")
        self.work.mkdir()
        self.page = (self.top / "docs/LIBRARY.md").read_text()
        homes = {name: os.environ[name] for name in ("CARGO_HOME", "RUSTUP_HOME") if name in os.environ}
        if "RUSTUP_HOME" not in homes and pathlib.Path.home().joinpath(".rustup").exists():
            homes["RUSTUP_HOME"] = str(pathlib.Path.home() / ".rustup")
        self.environment = {
            **homes,
            "PATH": os.pathsep.join(it for it in os.environ["PATH"].split(os.pathsep) if not os.path.exists(f"{it}/rt")),
            "HOME": str(self.work),
            "PIP_ROOT_USER_ACTION": "ignore",
            "PKG_CONFIG_PATH": f"{self.top}/lib/pkgconfig",
        }

    def example(self, heading):
        """The first block of code below a heading of the page."""
        chapter = self.page.partition(f"\n## {heading}\n")[2].splitlines()
        code = itertools.dropwhile(lambda line: not line.startswith("    "), chapter)
        lines = itertools.takewhile(lambda line: not line or line.startswith("    "), code)
        return textwrap.dedent("\n".join(lines)).strip() + "\n"

    def run(self, *words, **how):
        """What a command writes, in bash where it is one text."""
        command = ["bash", "-c", words[0]] if len(words) == 1 else list(words)
        done = subprocess.run(command, cwd=self.work, env=self.environment, stdout=subprocess.PIPE, check=True, **how)
        return done.stdout


def in_program(archive):
    """The seven bytes, and the command lines of one table, as the README has them run."""
    tables = archive.run("python3", str(archive.top / "tests/run.py"), f"{archive.top}/bin/cborn", str(archive.top / "tests/check.table"))
    return archive.run(f"{archive.top}/bin/cborn", "normalise", input=LOOSE) == TIGHT and tables.endswith(b" 0 failed\n")


def in_c(archive):
    (archive.work / "example.c").write_text(archive.example("A call"))
    by_hand = archive.run(f"cc example.c -I{archive.top}/include {archive.top}/lib/libcborn.a && ./a.out")
    by_name = archive.run(f"cc example.c $(pkg-config --cflags --libs cborn) -Wl,-rpath,{archive.top}/lib && ./a.out")
    return by_hand == by_name == TIGHT


def in_python(archive):
    archive.run(f"python3 -m pip install --quiet --no-index --target modules {archive.top}/python/*.whl")
    page = archive.example("Python")
    (archive.work / "page.txt").write_text(page)
    told = archive.run("PYTHONPATH=modules python3 -m doctest -v page.txt")
    programs = [archive.run(f"PYTHONPATH=modules {it} normalise", input=LOOSE) for it in ("python3 -m cborn", "modules/bin/cborn")]
    readme = (archive.top / "README.md").read_text().partition("**From Python:**\n\n")[2]
    lines = textwrap.dedent("".join(itertools.takewhile(lambda line: line.startswith("    "), readme.splitlines(keepends=True))))
    names = "".join(f"{name}\n" for name in sorted(set(re.findall(r"cborn\.\w+", lines))))
    (archive.work / "readme.py").write_text(f"data = left = right = bytes.fromhex('{LOOSE.hex()}')\n{lines}{names}print(signed.hex())\n")
    shown = archive.run("PYTHONPATH=modules python3 readme.py")
    # it ends with the status 1: not deterministic
    explained = archive.run("PYTHONPATH=modules python3 -m cborn check --explain 2>&1 || test $? = 1", input=LOOSE)
    is_explained = explained.startswith(b"offset 0: long head\n  path  item 0\n  bytes >98< 02 18 01 58 01 61\n  why   ")
    return b"Test passed." in told and f"\n{page.count('>>> ')} passed".encode() in told and programs == [TIGHT] * 2 and is_explained and shown == f"{TIGHT.hex()}\n".encode()


def in_python_from_sources(archive):
    archive.run(f"python3 -m pip install --quiet --no-index --no-build-isolation --target built {archive.top}/python/*.tar.gz")
    return archive.run("PYTHONPATH=built built/bin/cborn normalise", input=LOOSE) == TIGHT


def in_rust(archive):
    call = archive.work / "call"
    (call / "src").mkdir(parents=True)
    (call / "src/main.rs").write_text(archive.example("Rust"))
    package = '[package]\nname = "call"\nversion = "0.0.0"\nedition = "2021"\n'
    (call / "Cargo.toml").write_text(f'{package}[dependencies]\ncborn = {{ path = "{archive.top}/rust" }}\n')
    return archive.run("cargo run --offline --quiet --manifest-path call/Cargo.toml", input=LOOSE) == TIGHT


def in_go(archive):
    (archive.work / "main.go").write_text(archive.example("Go"))
    return archive.run(f"LD_LIBRARY_PATH={archive.top}/lib go run main.go") == b"82014161 <nil>\n"


def in_java(archive):
    (archive.work / "Seven.java").write_text(archive.example("Java"))
    told = archive.run(f"javac -cp {JNA} Seven.java && java -cp {JNA}:. Seven {archive.top}/lib/libcborn.so")
    return told == b"82014161\n"


WAYS = {
    "the program": (in_program, ()),
    "C": (in_c, ("cc", "pkg-config")),
    "Python": (in_python, ("python3",)),
    "Python, from the source archive": (in_python_from_sources, ("python3", "cc", "setuptools", "wheel", "Python.h")),
    "Rust": (in_rust, ("cargo", "rustc")),
    "Go": (in_go, ("go",)),
    "Java": (in_java, ("javac", "java", JNA)),
}


def main():
    failed = 0
    for name, (way, tools) in WAYS.items():
        missing = [tool for tool in tools if not is_there(tool)]
        if missing:
            print(f"{name}: not tried, without {', '.join(missing)}")
            continue
        with tempfile.TemporaryDirectory() as folder:
            is_right = way(Archive(os.path.abspath(sys.argv[1]), folder))
        failed += not is_right
        print(f"{name}: {'as it should' if is_right else 'WRONG'}")
    return 1 if failed else 0


if __name__ == "__main__":
    sys.exit(main())
