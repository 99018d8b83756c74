"""The processor time, user and system, that a process's children have used."""

import os
import resource
from collections import defaultdict
from collections.abc import Iterator
from pathlib import Path

TICKS = os.sysconf("SC_CLK_TCK")


def ended_seconds() -> float:
    """Of all children that have ended and were waited for."""
    ended = resource.getrusage(resource.RUSAGE_CHILDREN)
    return ended.ru_utime + ended.ru_stime


def processes() -> Iterator[tuple[int, int, float, float]]:
    """Each process with its parent, the seconds that it used, and those that its ended children used."""
    for folder in Path("/proc").glob("[0-9]*"):
        try:
            # (the name before the bracket may have any sign in it)
            words = (folder / "stat").read_text(errors="replace").rpartition(")")[2].split()
        except OSError:
            continue
        own, of_children = sum(map(int, words[11:13])), sum(map(int, words[13:15]))
        yield int(folder.name), int(words[1]), own / TICKS, of_children / TICKS


def used_seconds() -> tuple[float, list[float]]:
    """Of all below this process: what has ended, and what each that is under way has used so far. A child
    that runs others, as `rt` runs the prover, is no work under way itself."""
    children, times = defaultdict(list), {}
    for process, parent, own, of_children in processes():
        children[parent].append(process)
        times[process] = own, of_children
    runners = children[os.getpid()]
    ended = ended_seconds() + sum(sum(times[runner]) for runner in runners)

    def whole(process: int) -> float:
        return sum(times[process]) + sum(map(whole, children[process]))

    return ended, [whole(process) for runner in runners for process in children[runner]]
