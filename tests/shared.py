"""Runs that are shared out over the processors, the libraries that the loader puts in front of the C library, a program that
stands ready for its runs by one of them, and what compiles C."""
import concurrent.futures
import itertools
import os
import pathlib
import socket
import subprocess
import tempfile

from run import Outcome

HERE = pathlib.Path(__file__).resolve().parent
# more than a line of serve.c or trouble.c has
LINE = 256


def compiled(made, *words):
    """The path of what $CC or cc makes of C."""
    subprocess.run([os.environ.get("CC", "cc"), "-o", made, *map(str, words)], check=True)
    return made


class Served:
    """A program that stands ready for its runs: a library that is made of serve.c, and of what else the loader shall put in
    front of the C library, lets each of them begin in a child of one process, where to load the program took most of the time."""

    def __init__(self, library, program):
        self.library, self.program = library, program
        self.socket, theirs = socket.socketpair(socket.AF_UNIX, socket.SOCK_SEQPACKET)
        self.stdin, self.stdout, self.stderr = self.files = [os.memfd_create(name) for name in ("stdin", "stdout", "stderr")]
        number = str(theirs.fileno())
        # the page faults of an input of 1 GB cost more than what is done with it: where it can be, its pages are great ones
        settings = {"LD_PRELOAD": library, "SERVE": number, "TELL": number, "GLIBC_TUNABLES": "glibc.malloc.hugetlb=1"}
        how = {"env": {**os.environ, **settings}, "pass_fds": [theirs.fileno()]}
        self.process = subprocess.Popen([program], stdin=self.stdin, stdout=self.stdout, stderr=self.stderr, **how)
        theirs.close()

    def __enter__(self):
        return self

    def __exit__(self, *_):
        self.socket.close()
        self.process.wait()
        for file in self.files:
            os.close(file)

    def run(self, words, given=b"", folder="/"):
        """The outcome of a run of these words in a folder, with what is given as standard input."""
        return self.told(words, given, folder)[0]

    def told(self, words, given=b"", folder="/", **settings):
        """That with settings in the environment, and the words that the library tells of the run."""
        os.pwrite(self.stdin, given, 0)
        os.ftruncate(self.stdin, len(given))
        for file in self.files:
            os.lseek(file, 0, os.SEEK_SET)
        texts = [folder, *map("=".join, settings.items()), "", *words]
        *lines, last = self.answered(b"".join(os.fsencode(text) + b"\0" for text in texts))
        return Outcome(self.written(self.stdout), self.written(self.stderr), int(last[1:])), b"".join(lines).split()

    def answered(self, request):
        """The lines that come back, of which the last one has the status."""
        try:
            self.socket.send(request)
            lines = [self.socket.recv(LINE)]
            while lines[-1] and not lines[-1].startswith(b"="):
                lines.append(self.socket.recv(LINE))
        except ConnectionError:
            lines = [b""]
        if not lines[-1]:
            raise RuntimeError(f"{self.program} takes no requests: serve.c is for programs that are linked with glibc, a shared library")
        return lines

    def written(self, file):
        """What a run has written to a file."""
        return os.pread(file, os.lseek(file, 0, os.SEEK_CUR), 0)

    def of_case(self, case, **settings):
        """The same of a case of a table. Where its standard input fails or its output is another, the program is loaded for it alone."""
        if not case.is_failing and case.output is None:
            outcome, lines = self.told(case.words, case.stdin, case.folder, **settings)
            return outcome._replace(left=case.left()), lines
        reader, writer = os.pipe()
        outcome = case.run(self.program, env={"LD_PRELOAD": self.library, "TELL": str(writer), **settings}, pass_fds=[writer])
        os.close(writer)
        with open(reader, "rb") as lines:
            return outcome, lines.read().split()


def over_processors(tried, runs, *given, at_once=1):
    """What `tried(*given, some)` answers for so many runs at once: the sum of each of its numbers, and all the lines of what is wrong."""
    runs = iter(runs)
    with concurrent.futures.ProcessPoolExecutor() as pool:
        parts = [pool.submit(tried, *given, some) for some in iter(lambda: list(itertools.islice(runs, at_once)), [])]
        *numbers, wrong = zip(*(part.result() for part in parts))
    return [*map(sum, numbers), list(itertools.chain.from_iterable(wrong))]


def tried(find, library, program, those):
    """Some runs of a program that stands ready: how many, how many failed, how many attempts they were, and what is wrong."""
    runs = failed = attempts = 0
    wrong = []
    with Served(library, program) as served:
        for name, count, lines in find(served, those):
            runs, failed, attempts = runs + 1, failed + bool(lines), attempts + count
            wrong += [f"{name}: {line}" for line in lines]
    return runs, failed, attempts, wrong


def served_over_processors(find, runs, program, *sources, at_once=1):
    """The sums and lines of `tried` for so many runs at once, by a library of these C files of this folder. `find(served, some)`
    yields of each its name, how many attempts it was, and the lines of what is wrong."""
    with tempfile.TemporaryDirectory() as folder:
        made = compiled(f"{folder}/library.so", "-O2", "-shared", "-fPIC", *(HERE / source for source in sources), "-ldl")
        return over_processors(tried, runs, find, made, str(pathlib.Path(program).resolve()), at_once=at_once)


def status(count, wrong, summary):
    """Prints each line of what is wrong, and then the summary. The status: 0 where something was tried, and nothing is wrong."""
    for line in wrong:
        print(line)
    print(f"{summary}, {len(wrong)} failed")
    return 1 if wrong or not count else 0
