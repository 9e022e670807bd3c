#!/usr/bin/env python3
"""Make the wheel and the source archive of the Python package: the same bytes each time.

    make_wheel.py VERSION BUILD_FOLDER FOLDER

BUILD_FOLDER has python/cborn, as `make python` makes it, and libcborn.a; both files go into FOLDER. One wheel serves
CPython 3.8 and all later versions on Linux with an x86-64 processor and glibc 2.17. What it says of itself is that of
pyproject.toml. No tool but Python 3.11 or later is needed.
"""
import base64
import gzip
import hashlib
import io
import pathlib
import re
import sys
import tarfile
import tomllib
import zipfile

HERE = pathlib.Path(__file__).resolve().parent
HEADER = HERE.parent.parent / "include/cborn.h"
NEWEST_GLIBC = 17
TAG = "cp38-abi3-manylinux_2_17_x86_64"
OF_SOURCES = ("README.md", "pyproject.toml", "setup.py", "test_cborn.py")
OF_PACKAGE = ("__init__.py", "__main__.py", "_cborn.pyi", "py.typed")


def told_project():
    return tomllib.loads((HERE / "pyproject.toml").read_text())["project"]


def commands():
    """The commands that come with the package, for entry_points.txt of the wheel."""
    lines = ["[console_scripts]", *(f"{name} = {called}" for name, called in told_project()["scripts"].items())]
    return ("\n".join(lines) + "\n").encode()


def metadata(version):
    """What the package says of itself, for METADATA of the wheel and PKG-INFO of the sources."""
    project = told_project()
    if project["version"] != version:
        sys.exit(f"pyproject.toml has the version {project['version']}, and the library is made as {version}")
    lines = [
        "Metadata-Version: 2.1",
        f"Name: {project['name']}",
        f"Version: {version}",
        f"Summary: {project['description']}",
        f"Keywords: {','.join(project['keywords'])}",
        *(f"Classifier: {it}" for it in project["classifiers"]),
        f"Requires-Python: {project['requires-python']}",
        "Description-Content-Type: text/markdown",
        "",
        (HERE / project["readme"]).read_text(),
    ]
    return "\n".join(lines).encode()


def of_old_glibc(extension):
    """The extension's bytes, if it calls nothing of a glibc that is newer than the wheel's tag says."""
    found = {int(n) for n in re.findall(rb"GLIBC_2\.(\d+)", extension)}
    if max(found, default=0) > NEWEST_GLIBC:
        sys.exit(f"the extension wants glibc 2.{max(found)}, and the wheel's tag says 2.{NEWEST_GLIBC}")
    return extension


def entry(path, data):
    """A line of the wheel's list of files."""
    digest = base64.urlsafe_b64encode(hashlib.sha256(data).digest()).rstrip(b"=").decode()
    return f"{path},sha256={digest},{len(data)}\n"


def wheel_files(version, build):
    about = f"cborn-{version}.dist-info"
    package = build / "python/cborn"
    found = {f"cborn/{name}": (package / name).read_bytes() for name in OF_PACKAGE}
    found["cborn/_cborn.abi3.so"] = of_old_glibc((package / "_cborn.abi3.so").read_bytes())
    found[f"{about}/METADATA"] = metadata(version)
    found[f"{about}/WHEEL"] = f"Wheel-Version: 1.0\nGenerator: cborn\nRoot-Is-Purelib: false\nTag: {TAG}\n".encode()
    found[f"{about}/entry_points.txt"] = commands()
    record = f"{about}/RECORD"
    found[record] = ("".join(entry(*it) for it in found.items()) + f"{record},,\n").encode()
    return found


def source_files(version, build):
    found = {name: (HERE / name).read_bytes() for name in OF_SOURCES}
    found |= {f"cborn/{name}": (HERE / "cborn" / name).read_bytes() for name in (*OF_PACKAGE, "_cborn.c")}
    found["include/cborn.h"] = HEADER.read_bytes()
    found["lib/libcborn.a"] = (build / "libcborn.a").read_bytes()
    found["MANIFEST.in"] = b"recursive-include include *.h\nrecursive-include lib *.a\n"
    found["PKG-INFO"] = metadata(version)
    return found


def make_wheel(path, files):
    with zipfile.ZipFile(path, "w", zipfile.ZIP_DEFLATED) as made:
        for name, data in files.items():
            info = zipfile.ZipInfo(name, (1980, 1, 1, 0, 0, 0))
            info.external_attr = 0o644 << 16
            info.compress_type = zipfile.ZIP_DEFLATED
            made.writestr(info, data)


def make_sources(path, top, files):
    packed = io.BytesIO()
    with tarfile.open(fileobj=packed, mode="w", format=tarfile.USTAR_FORMAT) as made:
        for name, data in sorted(files.items()):
            info = tarfile.TarInfo(f"{top}/{name}")
            info.size, info.mode = len(data), 0o644
            made.addfile(info, io.BytesIO(data))
    path.write_bytes(gzip.compress(packed.getvalue(), mtime=0))


def main():
    version, build, folder = sys.argv[1], *map(pathlib.Path, sys.argv[2:])
    make_wheel(folder / f"cborn-{version}-{TAG}.whl", wheel_files(version, build))
    make_sources(folder / f"cborn-{version}.tar.gz", f"cborn-{version}", source_files(version, build))


if __name__ == "__main__":
    main()
