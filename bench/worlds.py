#!/usr/bin/env python3
"""Times a built `sptr` on worlds of several sizes: time grows with what a script does, and a little with the
blocks that it has. A figure is the lowest of many runs, which come in turn, so that what else the machine
does falls on all.

usage: bench/worlds.py PROGRAM [RUNS]"""
import subprocess
import sys
import time


def empty(blocks):
    """A script of so many blocks, without a statement."""
    return b"version 2 blocks %d\n" % blocks


def threads(blocks):
    """64 threads that make an object each, in the first of their blocks."""
    return empty(blocks) + b"make a\n" + b"thread\nmake a\n" * 63


def chain(objects):
    """So many objects, of which each is owned by the next one: two statements an object."""
    names = b"ab" * (objects // 2 + 1)
    links = (
        b"make %c\nexchange %c.first %c\n" % (names[i], names[i], names[i - 1]) for i in range(1, objects)
    )
    return empty(65535) + b"make a\n" + b"".join(links)


CASES = {
    "no statement, 64 blocks": empty(64),
    "no statement, 65,535 blocks": empty(65535),
    "64 threads, 64 blocks": threads(64),
    "64 threads, 65,535 blocks": threads(65535),
    "chain of 4,095": chain(4095),
    "chain of 32,768": chain(32768),
}


def seconds(program, script):
    """The time of a run."""
    start = time.perf_counter()
    subprocess.run([program, "step"], input=script, stdout=subprocess.DEVNULL, check=True)
    return time.perf_counter() - start


def main(program, runs="100"):
    lowest = dict.fromkeys(CASES, float("inf"))
    for _ in range(int(runs)):
        for name, script in CASES.items():
            lowest[name] = min(lowest[name], seconds(program, script))
    for name, time_taken in lowest.items():
        print(f"{name:30}{time_taken * 1000:8.2f} ms")


if __name__ == "__main__":
    main(*sys.argv[1:])
