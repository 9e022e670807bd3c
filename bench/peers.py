#!/usr/bin/env python3
"""The peers: what a user would pick instead, as drivers over Debian's packages. Run by itself it builds them.

    peers.py

A driver that can't be built is left out, and a line says what to install.
"""
import dataclasses
import os
import pathlib
import shutil
import subprocess
import sys

HERE = pathlib.Path(__file__).resolve().parent
BUILD = HERE / "build"
REGISTRY = "/usr/share/cargo/registry"
DEBIAN_PYTHON = "/usr/bin/python3"

# where Debian's packages lie
OF_GO = {"GO111MODULE": "off", "GOFLAGS": "", "GOPATH": "/usr/share/gocode", "GOCACHE": str(BUILD / "go-cache")}
ENVIRONMENT = {**os.environ, **OF_GO}


@dataclasses.dataclass
class Peer:
    """A driver: its folder, how it is built (in that folder) and called, and the packages that it wants."""

    name: str
    folder: str
    build: list
    call: list
    packages: str
    about: str
    orders: tuple = ()
    shows: bool = False
    texts: list | None = None


def qt_flags():
    if not shutil.which("pkg-config"):
        return []
    done = subprocess.run(["pkg-config", "--cflags", "--libs", "Qt5Core"], capture_output=True, text=True, check=False)
    return done.stdout.split()


def rust(name, folder, packages, about, **more):
    debian = ["--config", 'source.crates-io.replace-with="debian"', "--config", f'source.debian.directory="{REGISTRY}"']
    build = ["cargo", "build", "--release", "--offline", "--quiet", "--target-dir", str(BUILD / folder), *debian]
    driver = str(BUILD / folder / "release" / "driver")
    return Peer(name, folder, build, [driver], f"cargo, rustc, {packages}", about, **more)


BOTH = ("bytewise", "length-first")


def cbor2(name, about, **more):
    driver = [DEBIAN_PYTHON, str(HERE / "peers" / "py-cbor2" / "driver.py")]
    return Peer(name, "py-cbor2", [DEBIAN_PYTHON, "-c", "import cbor2"], driver, "python3, python3-cbor2", about, **more)


def all_of_them():
    """The peers that normalise, check and compare bytes, then those that write notation, and those that read a text."""
    go, qt = str(BUILD / "go-fxamacker"), str(BUILD / "cpp-qt")
    serde = "librust-serde-cbor-dev, librust-serde-json-dev"
    about = "a loop of our own over its heads, with no tree: a yardstick, no product"
    return [
        rust("ciborium-ll, a loop", "rust-ciborium-ll", "librust-ciborium-ll-dev", about, orders=BOTH),
        rust("serde_cbor", "rust-serde-cbor", "librust-serde-cbor-dev", "a Value for each item", orders=BOTH[:1]),
        Peer("fxamacker/cbor", "go-fxamacker", ["go", "build", "-o", go, "main.go"], [go],
             "golang-go, golang-github-fxamacker-cbor-dev", "an interface{} for each item", orders=BOTH),
        cbor2("cbor2", "a Python object for each item", orders=BOTH[1:]),
        Peer("Qt", "cpp-qt", ["g++", "-O2", "-fPIC", "-o", qt, "driver.cpp", *qt_flags()], [qt],
             "g++, pkg-config, qtbase5-dev", "a QCborValue for each item, printed", shows=True),
        rust("serde_json into serde_cbor", "rust-serde-json", serde, "a Value for all", texts=[]),
        cbor2("json into cbor2", "a Python object for all", texts=["from-json"]),
        Peer("jq -c", ".", ["jq", "-n", "1"], ["jq"], "jq", "JSON to JSON: what reading alone costs", texts=["-c", "."]),
    ]


def built(peer):
    """Whether the driver is there, or could be built. A line says what is missing."""
    if shutil.which(peer.build[0]):
        done = subprocess.run(peer.build, cwd=HERE / "peers" / peer.folder, env=ENVIRONMENT, capture_output=True, check=False)
        if done.returncode == 0:
            return True
    print(f"{peer.name} is left out: install Debian's {peer.packages}", file=sys.stderr)
    return False


def all_built():
    BUILD.mkdir(exist_ok=True)
    return [peer for peer in all_of_them() if built(peer)]


if __name__ == "__main__":
    for peer in all_built():
        print(f"{peer.name}: {peer.about}")
