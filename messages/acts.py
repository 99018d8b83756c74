"""The acts of a run, by the threads that make them: how many each thread has, and which turns find it done.

The script is run once more by `draw`, whose picture has a row for each act, in the order of the run.
"""

import bisect
import re
import subprocess
from collections.abc import Iterator

# A picture has at most so many rows, so a longer run is drawn in parts.
MOST = 2000
ROW = re.compile(rb'<text class="statement"[^>]*>(\d+)\.')


def pictures(program: str, turns: list[str], script: bytes, again: int = 0) -> Iterator[bytes]:
    """The run's picture, in parts, of which each begins with so many acts of the one before; one that is
    empty where the script or the list of turns is refused."""
    first, drawn = 1, MOST
    while drawn == MOST:
        part = [f"--from={first}", f"--to={first + MOST - 1}"]
        ran = subprocess.run([program, "draw", *turns, *part], input=script, capture_output=True)
        yield ran.stdout
        first, drawn = first + MOST - again, len(ROW.findall(ran.stdout))


def order(program: str, turns: list[str], script: bytes) -> list[int]:
    """The thread of each act; none where the script or the list of turns is refused."""
    return [int(it) for picture in pictures(program, turns, script) for it in ROW.findall(picture)]


def up_to(program: str, words: list[str], number: int, script: bytes) -> int:
    """How many of a run's first acts there are, up to this number; the run is drawn with these words."""

    def is_missing(act):
        part = [f"--from={act}", f"--to={act}"]
        ran = subprocess.run([program, "draw", *words, *part], input=script, capture_output=True)
        return not ROW.search(ran.stdout)

    return bisect.bisect(range(1, number + 1), False, key=is_missing)


def counted(program: str, script: bytes) -> str:
    """How many acts each thread has in the run that goes by itself."""
    threads = order(program, [], script)
    most = 1 + sum(line.split() == [b"thread"] for line in script.split(b"\n"))
    return " ".join(["acts", *(str(threads.count(it)) for it in range(1, most + 1))])


def too_late(program: str, turns: list[str], numbers: list[int], script: bytes) -> list[str]:
    """A line for each thread that is done when some of its turns come; `numbers` are those of `turns`."""
    threads, made, late = order(program, turns, script), 0, {}
    for position, thread in enumerate(numbers, 1):
        if threads[made : made + 1] == [thread]:
            made += 1
        else:
            late.setdefault(thread, []).append(str(position))
    return [f"thread {it} is done before turn {', '.join(late[it])} of the list" for it in sorted(late)]
