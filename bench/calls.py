#!/usr/bin/env python3
"""Time calls of the library from C, Rust, Go and Python, beside serde_cbor and cbor2: nanoseconds a call, best of some.

    calls.py BUILD_FOLDER

BUILD_FOLDER has libcborn.a and python/cborn (`make python`). The inputs are the array of 7 bytes of the README, a map
of ten pairs whose keys fall, of 101 bytes, and arrays of ten and of a hundred such maps. Go, serde_cbor (from
/usr/share/cargo/registry, where Debian's librust-serde-cbor-dev puts it) and cbor2 are left out where they aren't there.
serde_cbor's Value drops duplicate keys and tags, and cbor2's canonical form orders keys by length first, so they do less, and
other, work.
"""
import importlib.util
import os
import pathlib
import shutil
import subprocess
import sys
import tempfile
import timeit

HERE = pathlib.Path(__file__).resolve().parent
REGISTRY = pathlib.Path("/usr/share/cargo/registry")
CARGO = """bin = [{{ name = "calls", path = "{main}" }}]
[package]
name = "calls"
version = "0.0.0"
edition = "2021"
[dependencies]
cborn = {{ path = "{crate}" }}
serde_cbor = "0.11"
[profile.release]
debug = 0
"""
CONFIG = """[source.crates-io]
replace-with = "debian"
[source.debian]
directory = "{registry}"
"""


def inputs():
    pair = lambda k: b"\x65key-%d\x83\x01\x02%c" % (k, k)
    nested = b"\xaa" + b"".join(pair(k) for k in range(9, -1, -1))
    return bytes.fromhex("98021801580161"), nested, b"\x8a" + nested * 10, b"\x98\x64" + nested * 100


# the calls of Python, as texts, so that no function stands around them
CALLS = {
    "normalise": "normalise(data)",
    "check": "check(data)",
    "is_deterministic": "is_deterministic(data)",
    "show": "show(data)",
    "compare": "compare(data, data)",
    "same": "same(data, data)",
}


def timed(call, names, size):
    """Nanoseconds a call: the best of short rounds, which a machine that is shared disturbs least."""
    rounds = 1 + 10000 // (size + 100)
    return 1e9 * min(timeit.Timer(call, globals=names).repeat(2000, rounds)) / rounds


def in_python(build, names):
    """Lines of the package cborn, and of cbor2."""
    sys.path.insert(0, f"{build}/python")
    import cborn

    for data in (pathlib.Path(name).read_bytes() for name in names):
        for call, text in CALLS.items():
            yield f"Python|{call}|{len(data)}|{timed(text, {**vars(cborn), 'data': data}, len(data)):.0f}"
        if importlib.util.find_spec("cbor2"):
            import cbor2

            call = "dumps(loads(data), canonical=True)"
            yield f"cbor2|{call}|{len(data)}|{timed(call, {**vars(cbor2), 'data': data}, len(data)):.0f}"


def lines_of(*command, **how):
    """What a command prints."""
    return subprocess.run(command, check=True, capture_output=True, text=True, **how).stdout.splitlines()


def in_c(build, folder, names):
    program, sources = f"{folder}/calls", [str(HERE / "calls.c"), f"{build}/libcborn.a"]
    subprocess.run([os.environ.get("CC", "cc"), "-O2", f"-I{HERE.parent}/include", *sources, "-o", program], check=True)
    return lines_of(program, *names)


def in_rust(build, folder, names):
    if not list(REGISTRY.glob("serde_cbor-0.11*")):
        return ["Rust|left out: no serde_cbor|0|0"]
    place = pathlib.Path(folder, "rust")
    (place / ".cargo").mkdir(parents=True)
    (place / ".cargo/config.toml").write_text(CONFIG.format(registry=REGISTRY))
    (place / "Cargo.toml").write_text(CARGO.format(main=HERE / "calls.rs", crate=HERE.parent / "bindings/rust"))
    settings = {**os.environ, "CBORN_LIBRARY_FOLDER": build}
    return lines_of("cargo", "run", "--release", "--offline", "--quiet", "--", *names, cwd=place, env=settings)


def in_go(build, folder, names):
    if shutil.which("go") is None:
        return ["Go|left out: no go|0|0"]
    flags = {"CGO_CFLAGS": f"-O2 -I{HERE.parent}/include", "CGO_LDFLAGS": f"{build}/libcborn.a"}
    settings = {**os.environ, **flags, "GO111MODULE": "off", "GOCACHE": f"{folder}/go"}
    return lines_of("go", "run", str(HERE / "calls.go"), *names, env=settings)


def main():
    build = str(pathlib.Path(sys.argv[1]).resolve())
    with tempfile.TemporaryDirectory() as folder:
        names = [f"{folder}/{len(data)}" for data in inputs()]
        for name, data in zip(names, inputs()):
            pathlib.Path(name).write_bytes(data)
        lines = [line for timed_in in (in_c, in_rust, in_go) for line in timed_in(build, folder, names)]
        lines += in_python(build, names)
    table = {}
    for line in lines:
        language, call, size, cost = line.split("|")
        table.setdefault((language, call), {})[size] = cost
    sizes = [str(len(data)) for data in inputs()]
    print("| ns a call | | " + " | ".join(f"{size} bytes" for size in sizes) + " |")
    print("|---|---|" + "--:|" * len(sizes))
    for (language, call), costs in table.items():
        print(f"| {language} | {call} | " + " | ".join(costs.get(size, "") for size in sizes) + " |")


if __name__ == "__main__":
    main()
