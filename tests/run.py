#!/usr/bin/env python3
"""Run the built program on the tables of this folder and of forms/, and compare what it writes.

    run.py PROGRAM [TABLE..]

A table is a list of cases, each a paragraph of lines 'WORD REST':

    case NAME            what the case shows
    file NAME hex BYTES  a file in the folder that the program runs in; 'text' in place of 'hex' takes
                         a text with the escapes \\n and \\xNN (none, if it isn't ASCII), and 'folder'
                         makes a folder
    mode NAME N          the mode of that file, in octal
    link NAME TARGET     a symbolic link
    length NAME N        zeros after what that file holds, so that it has N bytes
    stdin hex BYTES      standard input, which is else empty
    input failing        standard input fails after these bytes, in place of ending
    output WHERE         standard output goes to 'closed', a pipe whose reader has gone, to 'first N', a file
                         that fails after N bytes, or to a file that is named, as /dev/full
    run ARGUMENTS        the program's arguments, quoted as in a shell
    argument hex BYTES   one more of them, of any bytes
    stdout hex BYTES     what it must write to standard output, which is else nothing;
                         'stdout holds TEXT' asks only that the text occurs
    stderr TEXT          what it must write to standard error, with the newline at its end, which is else
                         nothing; 'stderr holds TEXT' asks only that the text occurs
    status N             the exit status, which is else 0
    left NAME hex BYTES  what a file must hold after a run that names an output. Of such a run each other file
                         has to be as it was, and no further one there

In BYTES 'X * N' repeats X, 'X * A..B' puts each number from A to B (up or down) in place of its {..}, formatted
as Python does, 'X * A..B by S' each S-th of them, and '+' stands between parts. 'texts PARTS' has texts in place of
bytes, each in double quotes, with their escapes. The last six words are those of a run. One case may have several runs,
on the same files and input. Runs in a row without lines between them must do the same.
'stdout holds' and 'stderr holds' may stand more than once. A line that begins with '#' is a comment.
"""
import collections
import contextlib
import functools
import itertools
import os
import pathlib
import re
import resource
import shlex
import signal
import socket
import subprocess
import sys
import tempfile

# what a run wrote, its status, and what it left in its folder, if it names an output: see Case.state
Outcome = collections.namedtuple("Outcome", "stdout stderr status left", defaults=(None,))
HERE = pathlib.Path(__file__).resolve().parent
# forms of items and texts; the growths and the failures of their runs are those of the other tables
FORMS = HERE / "forms"
LONG = 4096
# what the system takes away of the mode of a new file
MASK = os.umask(0)
os.umask(MASK)
OF_A_RUN = ("run", "argument", "stdout", "stderr", "status", "left")


class Case:
    """One run of a case of a table, whose files lie in a folder."""

    def __init__(self, lines, folder):
        self.name, self.words, self.folder = str(lines), None, folder
        self.stdin, self.is_failing, self.output, self.room, self.status = b"", False, None, None, 0
        self.wanted = {"stdout": [], "stderr": []}
        self.changes = {}
        for word, rest in lines:
            self.read(word, rest)
        # a run that writes to a file is followed by a look at its folder, which is then made as it was
        self.saves = any(re.match("-o|--output", word) for word in self.words or [])
        self.before = self.state() if self.saves else None

    def read(self, word, rest):
        name, _, what = rest.partition(" ")
        path = pathlib.Path(self.folder, name)
        if word == "case":
            self.name = rest
        elif (word, what) == ("file", "folder"):
            path.mkdir()
        elif word == "file":
            path.write_bytes(given_bytes(what))
        elif word == "length":
            os.truncate(path, int(what))
        elif word == "mode":
            path.chmod(int(what, 8))
        elif word == "link":
            path.symlink_to(what)
        elif word == "left":
            self.changes[name] = given_bytes(what)
        elif word == "stdin":
            self.stdin = given_bytes(rest)
        elif (word, rest) == ("input", "failing"):
            self.is_failing = True
        elif word == "output":
            self.output, self.room = name, int(what) if what else None
        elif word == "run":
            self.name, self.words = f"{self.name}: {rest}", shlex.split(rest)
        elif word == "argument":
            self.words.append(os.fsdecode(given_bytes(rest)))
        elif word in self.wanted:
            is_part = rest.startswith("holds ")
            whole = given_bytes if word == "stdout" else lambda it: text_bytes(it) + b"\n"
            self.wanted[word].append((is_part, text_bytes(rest[6:]) if is_part else whole(rest)))
        elif word == "status":
            self.status = int(rest)
        else:
            raise ValueError(f"no such word: {word}")

    def run(self, program, **how):
        """What the program writes, and its status."""
        with contextlib.ExitStack() as opened:
            to = self.standard_output(opened)
            how |= {"cwd": self.folder, "preexec_fn": None if self.room is None else self.limit_files, **self.standard_input(opened)}
            done = subprocess.run([program, *self.words], stdout=to, stderr=subprocess.PIPE, timeout=60, check=False, **how)
            written = done.stdout if self.room is None else os.pread(to, self.room + 1, 0)
        return Outcome(written or b"", done.stderr, done.returncode, self.left())

    def state(self):
        """Each file, link and folder in the folder of the run: what a file holds and its mode, or where a link leads."""
        found = {}
        for path in sorted(pathlib.Path(self.folder).rglob("*")):
            name = str(path.relative_to(self.folder))
            if path.is_symlink():
                found[name] = os.readlink(path)
            elif path.is_dir():
                found[name] = None
            else:
                found[name] = path.read_bytes(), path.stat().st_mode & 0o7777
        return found

    def left(self):
        """The state after a run that names an output, whose folder is then made as it was before; else None."""
        if not self.saves:
            return None
        state = self.state()
        for name in state.keys() - self.before.keys():
            pathlib.Path(self.folder, name).unlink()
        for name, kept in self.before.items():
            if isinstance(kept, tuple) and state.get(name) != kept:
                path = pathlib.Path(self.folder, name)
                path.write_bytes(kept[0])
                path.chmod(kept[1])
        return state

    def wanted_state(self):
        """The state that a run has to leave: a file that was there keeps its mode."""
        wanted = dict(self.before)
        for name, what in self.changes.items():
            wanted[name] = what, self.before[name][1] if name in self.before else 0o666 & ~MASK
        return wanted

    def standard_input(self, opened):
        """The arguments of subprocess.run for standard input."""
        if not self.is_failing:
            return {"input": self.stdin}
        ours, theirs = map(opened.enter_context, socket.socketpair())
        ours.send(self.stdin)
        # the other side is closed with a byte that it didn't read, so a read after its own bytes fails
        theirs.send(b"?")
        ours.close()
        return {"stdin": theirs}

    def standard_output(self, opened):
        if self.output is None:
            return subprocess.PIPE
        if self.output == "closed":
            reader, writer = os.pipe()
            os.close(reader)
        elif self.room is not None:
            writer, _ = tempfile.mkstemp(dir=self.folder)
        else:
            writer = os.open(self.output, os.O_WRONLY)
        opened.callback(os.close, writer)
        return writer

    def limit_files(self):
        """In the process to come, make each write to a file fail after its first bytes."""
        signal.signal(signal.SIGXFSZ, signal.SIG_IGN)
        resource.setrlimit(resource.RLIMIT_FSIZE, (self.room, self.room))

    def differences(self, outcome):
        """What is wrong with an outcome, line by line."""
        for word, got in (("stdout", outcome.stdout), ("stderr", outcome.stderr)):
            for is_part, want in self.wanted[word] or [(False, b"")]:
                if is_part and want not in got:
                    yield f"{word} lacks {want!r}: {told(got)}"
                elif not is_part and want != got:
                    yield f"{word} is {told(got)}, not {told(want)}"
        if outcome.status != self.status:
            yield f"status is {outcome.status}, not {self.status}"
        if self.saves and outcome.left != self.wanted_state():
            yield f"the folder holds {outcome.left}, not {self.wanted_state()}"


def text_bytes(text):
    return text.encode().decode("unicode_escape").encode("latin-1") if text.isascii() else text.encode()


# the runs of a case have much in common
@functools.lru_cache(maxsize=16)
def given_bytes(rest):
    """The bytes that 'hex ..', 'text ..' or 'texts ..' names."""
    kind, _, value = rest.partition(" ")
    if kind == "text":
        return text_bytes(value)
    if kind not in READ:
        raise ValueError(f"neither hex nor text: {rest}")
    parts = [part.partition("*") for part in value.split("+")]
    return b"".join(repeated(READ[kind], piece, times or "1") for piece, _, times in parts)


def quoted_bytes(piece):
    """The bytes of a text in double quotes."""
    piece = piece.strip()
    if len(piece) < 2 or piece[0] + piece[-1] != '""':
        raise ValueError(f"no quotes: {piece}")
    return text_bytes(piece[1:-1])


# how the pieces of a part of BYTES are read
READ = {"hex": lambda pieces: bytes.fromhex(" ".join(pieces)), "texts": lambda pieces: b"".join(map(quoted_bytes, pieces))}


def repeated(read, piece, times):
    """The bytes of a part, N times, or once for each number of A..B, or for each S-th of them."""
    first, is_range, last = times.partition("..")
    if not is_range:
        return read([piece]) * int(times)
    last, _, every = last.partition(" by ")
    step = int(every or "1") * (1 if int(first) <= int(last) else -1)
    return read(map(piece.format, range(int(first), int(last) + (1 if step > 0 else -1), step)))


def told(content):
    """Bytes as a line of what is wrong tells them: of long ones their ends, and how many they are."""
    if len(content) <= LONG:
        return repr(content)
    return f"{content[: LONG // 2]!r} .. {content[-LONG // 2 :]!r} ({len(content)} bytes)"


def paragraphs(path):
    """The cases of a table: lists of (word, rest)."""
    for _, paragraph in itertools.groupby(path.read_text().splitlines(), lambda line: not line.strip()):
        lines = [line.partition(" ")[::2] for line in paragraph if line.strip() and not line.startswith("#")]
        if lines:
            yield lines


def single_runs(lines):
    """The lines of a case once for each of its runs, with what that run must do."""
    shared = [line for line in lines if line[0] not in OF_A_RUN]
    own = [line for line in lines if line[0] in OF_A_RUN]
    if [word for word, _ in lines].count("case") != 1 or not own or own[0][0] != "run":
        raise ValueError(f"a case needs one name, and a run in front of what it does: {lines}")
    groups = [list(group) for _, group in itertools.groupby(own, lambda line: line[0] == "run")]
    for runs, wanted in itertools.zip_longest(groups[::2], groups[1::2], fillvalue=[]):
        for run in runs:
            yield [*shared, run, *wanted]


def listed(names):
    """Each case of the tables of these names, or of all tables in this script's folder: the table's name, and its lines."""
    tables = [pathlib.Path(name) for name in names] or tables_in(HERE)
    return ((table.name, lines) for table in tables for lines in paragraphs(table))


def cases(those):
    """Each run of each of those cases."""
    for table, lines in those:
        for run in single_runs(lines):
            with tempfile.TemporaryDirectory() as folder:
                yield table, Case(run, folder)


def tables_in(*folders):
    """The tables of these folders."""
    return [table for folder in folders for table in sorted(folder.glob("*.table"))]


def main():
    program = str(pathlib.Path(sys.argv[1]).resolve())
    passed = failed = 0
    for table, case in cases(listed(sys.argv[2:] or tables_in(HERE, FORMS))):
        wrong = list(case.differences(case.run(program)))
        passed, failed = (passed, failed + 1) if wrong else (passed + 1, failed)
        for line in wrong:
            print(f"{table}: {case.name}: {line}")
    print(f"{passed} command lines passed, {failed} failed")
    return 1 if failed or not passed else 0


if __name__ == "__main__":
    sys.exit(main())
