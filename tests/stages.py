"""Runs the commands that ./check consists of, and says how far it is."""

import os
import re
import subprocess
import time
from collections.abc import Callable, Iterator
from pathlib import Path

from estimates import Stages, lanes
from processor_time import ended_seconds

ROOT = Path(__file__).resolve().parent.parent
START = time.monotonic()
# The prover's allocator keeps what is freed: a check takes 2 to 3 % less processor time so, and 1 to 3 % more
# memory.
KEEPING_MEMORY = {"MIMALLOC_PURGE_DELAY": "-1"}
COUNTS = re.compile(r"(?:\w+: )?(\d+) passed, (\d+) failed$")
# What passed and what failed.
Result = tuple[int, int]


def say(text: str):
    minutes, seconds = divmod(int(time.monotonic() - START), 60)
    print(f"[{minutes:3}:{seconds:02}] {text}", flush=True)


def in_words(minutes: float) -> str:
    return f"{minutes:.0f} minutes" if minutes >= 1.5 else "a minute or less"


def run(
    *command: str, folder: Path = ROOT, watch: Callable[[str], None] | None = None, unit: int = 1
) -> Result:
    """Runs a command and passes its lines on, each to `watch` too. Returns what passed and what failed: as
    its own last counts say, or else `unit` by its exit status. One that tested nothing has failed."""
    counts = None
    to = {"stdin": subprocess.DEVNULL, "stdout": subprocess.PIPE, "stderr": subprocess.STDOUT}
    # (a number of jobs that is given keeps `rt ci` from splitting a check, each part of which would read all
    # libraries)
    to["env"] = {"RT_JOBS": str(lanes()), **KEEPING_MEMORY, **os.environ}
    with subprocess.Popen(command, cwd=folder, text=True, errors="replace", **to) as ran:
        for line in ran.stdout:
            print(line, end="", flush=True)
            counts = COUNTS.match(line) or counts
            if watch:
                watch(line)
    passed, failed = map(int, counts.groups()) if counts else (unit * (ran.returncode == 0), 0)
    return passed, failed or int(ran.returncode != 0 or passed == 0)


def stage(title: str, *command: str, **how: object) -> Result:
    """Runs a command as `run` does, and says what it is and what it took."""
    say(title)
    before, begun = ended_seconds(), time.monotonic()
    result = run(*command, **how)
    seconds, used = time.monotonic() - begun, ended_seconds() - before
    say(f"that took {seconds:.0f} s, {used:.0f} processor seconds")
    return result


def stages(expected: Stages, listed: list[tuple[str, ...]]) -> Iterator[Result]:
    """Runs stages one after another, each a title and a command, and says how long the rest will take. One
    whose build isn't there has failed."""
    for title, *command in listed:
        begun = time.monotonic()
        builds = [word for word in command if word.startswith(f"{ROOT}/crates/")]
        lacking = [build for build in builds if not Path(build).exists()]
        if lacking:
            say(f"FAILED: {title}: there is no {lacking[0]}")
            yield 0, 1
        else:
            yield stage(title, *command)
        expected.done(title, time.monotonic() - begun)
        say(f"left: {in_words(expected.minutes())}")
