"""Runs of built programs, cheap ones, as there are many: what a program reads and writes lies in memory,
where the next run of the same process puts its own."""
import functools
import multiprocessing
import os
import pathlib
import signal
import sys
from datetime import date
from typing import NamedTuple

SECONDS = 60
# What random inputs are drawn by where no seed is given: the day's number.
SEED = str(date.today().toordinal())
# What Python ignores, a program that it starts does not.
HEARD = (signal.SIGPIPE, signal.SIGXFSZ)


def built(programs):
    """These programs by their whole paths, or a sentence where one isn't there."""
    for it in programs:
        if not os.access(it, os.X_OK):
            name = pathlib.Path(sys.argv[0]).name
            ways = "./sptr --prove builds one, ./sptr --build one without a proof"
            sys.exit(f"{name}: there is no program {it}; {ways}")
    return [os.path.abspath(it) for it in programs]


class Run(NamedTuple):
    status: int
    output: bytes
    faults: bytes


@functools.cache
def ends(process):
    """Where a process has its programs read, write and tell of faults."""
    return [os.memfd_create(f"{name} of {process}") for name in ("input", "output", "faults")]


def late(*_):
    raise TimeoutError


def ended(process):
    """The status of a process at its end; one that goes on for too long is stopped."""
    signal.signal(signal.SIGALRM, late)
    signal.alarm(SECONDS)
    try:
        return os.waitstatus_to_exitcode(os.waitpid(process, 0)[1])
    except TimeoutError:
        os.kill(process, signal.SIGKILL)
        os.waitpid(process, 0)
        raise
    finally:
        signal.alarm(0)


def run(words, script, **settings):
    """A run of these words on a script, with such settings in its environment."""
    files = ends(os.getpid())
    for file in files:
        os.ftruncate(file, 0)
        os.lseek(file, 0, os.SEEK_SET)
    os.pwrite(files[0], script, 0)
    moved = [(os.POSIX_SPAWN_DUP2, file, end) for end, file in enumerate(files)]
    process = os.posix_spawn(words[0], words, {**os.environ, **settings}, file_actions=moved, setsigdef=HEARD)
    return Run(ended(process), *(os.pread(file, os.fstat(file).st_size, 0) for file in files[1:]))


def side_by_side(work, cases):
    """What the work gives of each case, by a process for each processor."""
    with multiprocessing.Pool() as pool:
        return pool.map(work, cases, chunksize=max(1, len(cases) // 1000))
