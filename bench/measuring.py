"""One run of a program: how long it takes, and how much memory it has at most."""
import dataclasses
import functools
import hashlib
import os
import pathlib
import resource
import shutil
import signal
import subprocess
import tempfile
import threading
import time

# GNU time tells the peak of its child; what the kernel tells of our own counts our own pages too
TIME = shutil.which("time")


@dataclasses.dataclass
class Run:
    """Wall and processor time in seconds, peak memory in bytes, the status, and what the output is."""

    wall: float
    processor: float
    peak: int
    status: int
    size: int
    digest: str

    def seconds(self, is_processor):
        return self.processor if is_processor else self.wall


def needs_time():
    """What to say where memory can't be measured, or none."""
    return None if TIME else "memory can't be measured: install Debian's package time"


def digest(path):
    with open(path, "rb") as file:
        return hashlib.file_digest(file, "sha256").hexdigest()[:12]


def spawned(words, source, sink, memory, environment):
    bounded = None if memory is None else functools.partial(resource.setrlimit, resource.RLIMIT_AS, (memory, memory))
    how = {"stdin": source, "stdout": sink, "stderr": subprocess.DEVNULL, "preexec_fn": bounded, "env": environment}
    return subprocess.Popen(words, start_new_session=True, **how)


def once(words, source, sink, limit=120, memory=None, environment=None):
    """A run that reads the file `source` and writes the file `sink`. `memory` bounds its address space, in bytes. After `limit`
    seconds the child and its own children are ended."""
    with tempfile.NamedTemporaryFile("r") as told, open(source, "rb") as read, open(sink, "wb") as write:
        front = [TIME, "-q", "-f", "%M", "-o", told.name] if TIME else []
        start = time.perf_counter()
        child = spawned([*front, *words], read, write, memory, environment)
        ended = threading.Timer(limit, os.killpg, (child.pid, signal.SIGKILL))
        ended.start()
        _, status, used = os.wait4(child.pid, 0)
        ended.cancel()
        child.returncode = os.waitstatus_to_exitcode(status)
        wall = time.perf_counter() - start
        lines = told.read().split()
        peak = int(lines[-1]) * 1024 if lines else 0
    return Run(wall, used.ru_utime + used.ru_stime, peak, child.returncode, pathlib.Path(sink).stat().st_size, digest(sink))


def best(words, source, sink, count, is_processor=False, **options):
    """Of so many runs the least time and the least peak; the first failed one instead, if there is one."""
    runs = []
    for _ in range(count):
        runs.append(once(words, source, sink, **options))
        if runs[-1].status not in (0, 1):
            return runs[-1]
        if runs[-1].wall > 20:
            break
    quickest = min(runs, key=lambda run: run.seconds(is_processor))
    return dataclasses.replace(quickest, peak=min(run.peak for run in runs))


def many(words, source, count, environment=None):
    """Wall and processor time of each of so many processes, in seconds: the median of each."""
    times = []
    with open(os.devnull, "wb") as sink:
        for _ in range(count):
            with open(source, "rb") as read:
                start = time.perf_counter()
                child = spawned(words, read, sink, None, environment)
                _, _, used = os.wait4(child.pid, 0)
                times.append((time.perf_counter() - start, used.ru_utime + used.ru_stime))
                child.returncode = 0
    return tuple(sorted(each)[count // 2] for each in zip(*times))
