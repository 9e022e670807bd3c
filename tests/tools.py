#!/usr/bin/env python3
"""Say what of `make test` was left out because its tools, or the archive of a version, aren't there: one line, the last of the gate.

    tools.py            the line, with the packages that would bring what is missing
    tools.py --needed   the Debian packages that bring what is missing and without which the gate can't run at all
"""
import importlib.util
import os
import pathlib
import shutil
import sys
import sysconfig

ROOT = pathlib.Path(__file__).resolve().parent.parent
JNA = "/usr/share/java/jna.jar"
# what is tested, the commands and files that it takes, and their packages
NEEDED = {
    "the C compiler": (("cc", "ar", "ld", "objcopy"), ("gcc", "binutils")),
    "the tests in Python": (("python3",), ("python3",)),
    "the Python package": (("Python.h",), ("python3-dev",)),
}
OPTIONAL = {
    "the cost of memory": (("time",), ("time",)),
    "the instructions": (("valgrind",), ("valgrind",)),
    "the completions of zsh": (("zsh",), ("zsh",)),
    "the completions of fish": (("fish",), ("fish",)),
    "the Rust crate": (("cargo", "rustc"), ("cargo", "rustc")),
    "the types of the Python package": (("mypy",), ("mypy",)),
    "the archive from C by its name": (("pkg-config",), ("pkg-config",)),
    "the archive from Python": (("pip",), ("python3-pip",)),
    "the source archive from Python": (("setuptools", "wheel"), ("python3-setuptools", "python3-wheel")),
    "the archive from Go": (("go",), ("golang-go",)),
    "the archive from Java": (("javac", "java", JNA), ("default-jdk-headless", "libjna-java")),
}


def is_there(tool):
    if tool in ("pip", "mypy", "setuptools", "wheel"):
        return importlib.util.find_spec(tool) is not None
    path = os.path.join(sysconfig.get_path("include"), tool) if tool == "Python.h" else tool
    return shutil.which(tool) is not None or os.path.isfile(path)


def missing(what):
    """What can't be tried, each with the tools that it lacks and with its packages."""
    for name, (tools, packages) in what.items():
        lacking = [tool for tool in tools if not is_there(tool)]
        if lacking:
            yield name, lacking, packages


def main():
    if sys.argv[1:] == ["--needed"]:
        print(" ".join(package for _, _, packages in missing(NEEDED) for package in packages))
        return 0
    left_out = [f"{name} (no {', '.join(tools)}: {' '.join(packages)})" for name, tools, packages in missing({**NEEDED, **OPTIONAL})]
    if not list(ROOT.glob("release/*.tar.gz")):
        left_out.append("the archive under release/ (none there: make release)")
    print(f"LEFT OUT: {'; '.join(left_out)}" if left_out else "nothing was left out")
    return 0


if __name__ == "__main__":
    sys.exit(main())
