#!/usr/bin/env python3
"""Run the built program with standard error or standard output on a terminal, and compare what a person gets there.

    terminals.py PROGRAM

If the bytes of an input are all printable ASCII or white space, and are refused, end a line or are hexadecimal, the terminal
gets a hint. So it does where a file that can't be read or written is a folder.
Each run is made a second time with a pipe in place of the terminal. The pipe must get no hint, and all else must be the
same. So this catches a hint that a script gets, or that a person doesn't.
Of runs with both streams on a terminal those that write CBOR bytes there get a hint before them. A terminal, a pipe and a file must
get the same bytes, with the same status.
"""
import contextlib
import os
import pathlib
import pty
import subprocess
import sys
import tempfile

HEXADECIMAL = "hint: the input looks like hexadecimal, and was read as CBOR bytes: xxd -r -p makes bytes of it"
NOTATION = "hint: the input is a text, and was read as CBOR bytes: normalise and show read diagnostic notation by --from notation, compare by --from-a and --from-b"
FOLDER = "hint: . is a folder"
BYTES = "hint: the answer is bytes: -o FILE writes them to a file, and --to notation makes a text of them"
FILES = {
    "digits": b"8301\n",
    "text": b"1\n",
    "item": bytes.fromhex("8201"),
    "bare": b"8301",
    "cut": b'{"a": 1}',
    "two\\lines": b"1\n",
    "items": bytes.fromhex("820102"),
    # 'a' times 38 after the head 78 26, which is 'x&': a text string, and all of it printable
    "string": b"x&" + b"a" * 38 + b"\n",
}
# more than the program reads at once
LONG = b"1 2\n" * 50_000

# arguments, standard input, the lines for any reader, those for a person alone, the status
CASES = (
    # RFC 8949 section 3: each of these bytes is an integer
    *((words, b"8301\n", [], [HEXADECIMAL], 0) for words in ("show", "check", "normalise")),
    *((words, b"", [], [HEXADECIMAL], 0) for words in ("show digits", "check digits", "normalise digits")),
    ("compare digits digits", b"", [], ["first: " + HEXADECIMAL, "second: " + HEXADECIMAL], 0),
    ("compare digits text", b"", [], ["first: " + HEXADECIMAL, "second: " + NOTATION], 1),
    ("compare items text", b"", [], ["second: " + NOTATION], 1),
    ("compare --from-b notation text text", b"", [], ["first: " + NOTATION], 1),
    # white space between digits, a line end of two characters, and upper case, which is a byte string's head
    ("check", b"83 01\r\n", [], [HEXADECIMAL], 0),
    ("check", b"A1\n", [], [HEXADECIMAL], 0),
    ("check", b"\n", [], [NOTATION], 0),
    ("show", b"1\n", [], [NOTATION], 0),
    # an odd number of digits
    ("show", b"831\n", [], [NOTATION], 0),
    ("show string", b"", [], [NOTATION], 0),
    # 38 31 is an integer in as few bytes as it can be; 38 0a is one in two bytes that needs one, and that is no refusal
    ("check", b"81\n", [], [HEXADECIMAL], 0),
    ("check", b"18\n", [], [HEXADECIMAL], 1),
    ("check", b"8\n", [], [NOTATION], 1),
    ("check --order length-first", b"1\n", [], [NOTATION], 0),
    ("show", LONG, [], [HEXADECIMAL], 0),
    *(("show", given, [], [NOTATION], 0) for given in (LONG + b"1\n", LONG + b",\n", b",\n" + LONG)),
    # the last line isn't ended, of hexadecimal and of another text; a byte that no text has, first, last and far in
    ("show", b"8301", [], [HEXADECIMAL], 0),
    ("check", b"83 01", [], [HEXADECIMAL], 0),
    ("normalise", b"38313031", [], [HEXADECIMAL], 0),
    *(("show", given, [], [], 0) for given in (b"831", b"1 -2")),
    ("compare items bare", b"", [], ["second: " + HEXADECIMAL], 1),
    *(("show", given, [], [], 0) for given in (b"\x01\n", b"1\x01", LONG + b"\x00\n", b"\x00" + LONG, b"")),
    *((words, b"", [], [], 0) for words in ("check items", "compare items items")),
    # what is read as notation is no text by mistake
    ("show --from notation", b"8301\n", [], [], 0),
    ("normalise --from notation-2 text", b"", [], [], 0),
    ("compare --from-a notation --from-b notation text text", b"", [], [], 0),
    # of a text that is refused, whether its last line is ended or not
    ("show", b"[\n", ["cborn: offset 2: truncated"], [NOTATION], 2),
    ("normalise", b'{"a": 1}', ["cborn: offset 8: truncated"], [NOTATION], 2),
    ("check", b"7f01", ["cborn: offset 4: truncated"], [HEXADECIMAL], 2),
    ("check --one", b"8301\n", ["cborn: offset 2: more than one item"], [HEXADECIMAL], 2),
    ("check --one", b"", ["cborn: offset 0: no item"], [], 2),
    ("normalise", b"[\x00", ["cborn: offset 2: truncated"], [], 2),
    ("normalise --from notation", b"[\n", ["cborn: offset 2: unexpected end"], [], 2),
    ("compare cut item", b"", ["cborn: first: offset 8: truncated"], ["first: " + NOTATION], 2),
    ("compare text item", b"", ["cborn: second: offset 2: truncated"], ["first: " + NOTATION], 2),
    ("compare items cut", b"", ["cborn: second: offset 8: truncated"], ["second: " + NOTATION], 2),
    ("compare text cut", b"", ["cborn: second: offset 8: truncated"], ["first: " + NOTATION, "second: " + NOTATION], 2),
    # of several files each hint has the name of its file
    ("check digits items", b"", [], ["digits: " + HEXADECIMAL], 0),
    ("check cut two\\lines bare", b"", ["cborn: cut: offset 8: truncated"], ["cut: " + NOTATION, "two\\u005clines: " + NOTATION, "bare: " + HEXADECIMAL], 2),
    # a file that isn't there is no refusal
    ("compare text none", b"", ["cborn: second: cannot read none"], [], 4),
    # a folder can be opened, and not read or replaced
    *((words, b"", ["cborn: read failed"], [FOLDER], 4) for words in ("check .", "show --one .")),
    ("compare . items", b"", ["cborn: first: read failed"], [FOLDER], 4),
    *((words, b"", ["cborn: second: read failed"], [FOLDER], 4) for words in ("compare items .", "compare --one items .")),
    ("check items .", b"", ["cborn: .: read failed"], [FOLDER], 4),
    ("normalise items -o .", b"", ["cborn: write failed"], [FOLDER], 4),
    ("normalise -o none/none", b"\x01", ["cborn: write failed"], [], 4),
    # the explanation has the hint whoever reads it
    ("check --explain", b"8301\n", ["  hint  " + HEXADECIMAL.removeprefix("hint: ")], [], 0),
)

# the bytes of [1, 2] in more bytes than it needs, and in as few as it can be
WIDE, TIGHT, SHOWN = bytes.fromhex("9802180102"), bytes.fromhex("820102"), b"[1, 2]\n"
# arguments, standard input, what is written, and whether a terminal gets no hint
OUTPUTS = (
    ("normalise", WIDE, TIGHT, False),
    ("normalise --to wire --order length-first --one", WIDE, TIGHT, False),
    ("normalise --from notation", b"[1, 2]", TIGHT, False),
    ("normalise items", b"", TIGHT, False),
    ("show --to wire", WIDE, WIDE, False),
    ("show --from notation --to wire", b"[1, 2]", TIGHT, False),
    # no bytes are bytes too
    ("normalise", b"", b"", False),
    ("normalise --to notation", WIDE, SHOWN, True),
    ("normalise --to notation items", b"", SHOWN, True),
    ("show items", b"", SHOWN, True),
    ("show", b"", b"", True),
    ("check items", b"", b"deterministic\n", True),
    ("compare items items", b"", b"same\n", True),
    ("normalise -o kept", WIDE, b"", True),
    ("show --to wire -o kept", WIDE, b"", True),
)
# what these leave in the file that they name
KEPT = {"normalise -o kept": TIGHT, "show --to wire -o kept": WIDE}


def piped(command, given, folder):
    """What a run writes, and its status."""
    done = subprocess.run(command, input=given, cwd=folder, capture_output=True, check=False)
    return done.stdout, done.stderr, done.returncode


def on_terminal(command, given, folder, out=subprocess.PIPE):
    """The same, with standard error on a terminal, which puts CR before each LF."""
    ours, theirs = pty.openpty()
    with subprocess.Popen(command, stdin=subprocess.PIPE, stdout=out or theirs, stderr=theirs, cwd=folder) as run:
        os.close(theirs)
        out, _ = run.communicate(given)
    told = b""
    # a read fails where the other side of the terminal is closed
    with contextlib.suppress(OSError):
        while piece := os.read(ours, 4096):
            told += piece
    os.close(ours)
    return out, told.replace(b"\r\n", b"\n"), run.returncode


def said(lines):
    return "".join(f"{line}\n" for line in lines).encode()


def wrong_runs(program, folder):
    """A line for each run that isn't as it should be."""
    for words, given, lines, hints, status in CASES:
        command = [program, *words.split()]
        script, person = piped(command, given, folder), on_terminal(command, given, folder)
        hints = [f"cborn: {hint}" for hint in hints]
        if script[1:] != (said(lines), status):
            yield f"{words} of {given[:20]}: a pipe gets {script[1:]}"
        if person != (script[0], said(lines + hints), status):
            yield f"{words} of {given[:20]}: a terminal gets {person[1:]}"


def wrong_outputs(program, folder):
    """A line for each run with both streams on a terminal, or with standard output alone, that isn't as it should be."""
    kept = pathlib.Path(folder, "kept")
    for words, given, answer, is_shown in OUTPUTS:
        command = [program, *words.split()]
        script, of_script = piped(command, given, folder), left_in(kept)
        person, of_person = on_terminal(command, given, folder, None), left_in(kept)
        if script != (answer, b"", 0) or of_script != KEPT.get(words):
            yield f"{words} of {given}: a pipe gets {script}, and the file {of_script}"
        if person != (None, (b"" if is_shown else said(["cborn: " + BYTES])) + answer, 0) or of_person != KEPT.get(words):
            yield f"{words} of {given}: a terminal gets {person}, and the file {of_person}"


def left_in(file):
    """The bytes of a file, which is then removed. None where there is no file."""
    data = file.read_bytes() if file.exists() else None
    file.unlink(missing_ok=True)
    return data


def main():
    program = os.path.abspath(sys.argv[1])
    with tempfile.TemporaryDirectory() as folder:
        for name, data in FILES.items():
            pathlib.Path(folder, name).write_bytes(data)
        wrong = [*wrong_runs(program, folder), *wrong_outputs(program, folder)]
    summary = f"{len(CASES) + len(OUTPUTS)} runs with a terminal and without passed, {len(wrong)} lines of what is wrong"
    print(*wrong, summary, sep="\n")
    return 1 if wrong else 0


if __name__ == "__main__":
    sys.exit(main())
