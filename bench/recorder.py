#!/usr/bin/env python3
"""Measures what ./record costs, in processor time: of a call, in nanoseconds, natively, without frames and as
it runs by default; and in all, in seconds with the most memory, of programs that leave many objects. Each
figure is the least of RUNS runs (3 where none is given), which come in turn.

usage: bench/recorder.py [OBJECTS [RUNS]]"""

import os
import subprocess
import sys
import tempfile
from pathlib import Path

ROOT = Path(__file__).resolve().parent.parent
RECORD = str(ROOT / "record")
CALLS = {
    "make": "make_shared and drop",
    "deep": "the same 17 calls deeper",
    "string": "a string of 40 and a vector of 5 numbers",
    "thread": "the same in a thread of its own",
    "threads": "make_shared and drop in four threads at once",
}
LEFT = {"kept": "kept", "pairs": "leaked in pairs", "hub": "leaked, owned by one hub that they own"}


def nanoseconds(words: list[str]) -> float:
    """What a program that times a call prints."""
    ran = subprocess.run(words, stdout=subprocess.PIPE, stderr=subprocess.DEVNULL, text=True)
    return float(ran.stdout)


def used(words: list[str]) -> tuple[float, int]:
    """Seconds of processor time of a run and all that it starts, and the most megabytes of one of these
    processes."""
    with subprocess.Popen(words, stdout=subprocess.DEVNULL, stderr=subprocess.DEVNULL) as run:
        _, _, of_run = os.wait4(run.pid, 0)
        run.returncode = 0
    return of_run.ru_utime + of_run.ru_stime, of_run.ru_maxrss >> 10


def main(objects: str = "1000000", runs: str = "3"):
    with tempfile.TemporaryDirectory() as folder:
        program = f"{folder}/recorded"
        source = ROOT / "bench/recorded.cpp"
        subprocess.run(["g++", "-g", "-O2", "-std=c++17", "-pthread", source, "-o", program], check=True)
        ways = [], [RECORD, "--frames", "0"], [RECORD]
        turns = range(int(runs))
        for name, title in CALLS.items():
            times = [[nanoseconds([*way, program, name]) for way in ways] for _ in turns]
            native, *others = map(min, zip(*times))
            ratios = ", ".join(f"{it:.1f} ({it / native:.2f})" for it in others)
            print(f"{title}: {native:.1f} ns; {ratios}", flush=True)
        for name, title in LEFT.items():
            seconds, megabytes = min(used([RECORD, program, name, objects]) for _ in turns)
            print(f"{objects} objects {title}: {seconds:.1f} s, {megabytes} MB", flush=True)


if __name__ == "__main__":
    main(*sys.argv[1:])
