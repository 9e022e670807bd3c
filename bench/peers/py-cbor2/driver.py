"""cbor2 with canonical=True, which is RFC 7049's order: shorter keys first.

    driver.py normalise < IN > OUT
    driver.py check < IN
    driver.py compare ORDER FILE_A FILE_B
    driver.py from-json < IN > OUT
"""
import io
import json
import pathlib
import sys

import cbor2


def normalise(data):
    """The canonical encodings of what the bytes hold."""
    source, out = io.BytesIO(data), io.BytesIO()
    while source.tell() < len(data):
        out.write(cbor2.dumps(cbor2.CBORDecoder(source).decode(), canonical=True))
    return out.getvalue()


def told(is_same, yes, no):
    print(yes if is_same else no)
    return 0 if is_same else 1


def answer(mode, *words):
    if mode == "compare":
        first, second = (normalise(pathlib.Path(name).read_bytes()) for name in words[1:])
        return told(first == second, "same", "different")
    if mode == "from-json":
        sys.stdout.buffer.write(cbor2.dumps(json.load(sys.stdin), canonical=True))
        return 0
    data = sys.stdin.buffer.read()
    if mode == "check":
        return told(normalise(data) == data, "deterministic", "not deterministic")
    sys.stdout.buffer.write(normalise(data))
    return 0


try:
    sys.exit(answer(*sys.argv[1:]))
except Exception as fault:  # whatever refuses the input
    print(f"{type(fault).__name__}: {fault}", file=sys.stderr)
    sys.exit(2)
