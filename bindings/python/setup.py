"""Builds the extension over the library in lib/: one for CPython 3.8 and all later versions."""
import platform
import sys

from setuptools import Extension, setup

if (sys.platform, platform.machine()) != ("linux", "x86_64"):
    sys.exit("cborn: lib/libcborn.a is a library for Linux on x86-64, and there is none for this platform")

EXTENSION = Extension(
    "cborn._cborn",
    ["cborn/_cborn.c"],
    include_dirs=["include"],
    extra_objects=["lib/libcborn.a"],
    depends=["include/cborn.h", "lib/libcborn.a"],
    extra_compile_args=["-std=c11"],
    extra_link_args=["-Wl,--exclude-libs,ALL"],
    py_limited_api=True,
)

setup(ext_modules=[EXTENSION], options={"bdist_wheel": {"py_limited_api": "cp38"}})
