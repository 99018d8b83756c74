"""How long checks will take: by what one run from nothing took, by what this run has measured so far, and by
the load.

gate_minutes.csv has the processor minutes of each crate, stage_seconds.csv the seconds by the clock of each
stage that runs once all is proved. `tests/gate_times` writes both of one run."""

import csv
import os
import re
import statistics
import sys
import time
from collections.abc import Iterable
from pathlib import Path

from processor_time import used_seconds

HERE = Path(__file__).resolve().parent
PARTS = "proofs", "tests", "edits"
# The most memory that one check of a crate has taken, in bytes.
MEMORY_OF_A_CHECK = 4 << 30
# How many crates' wrong bodies are tried at a time.
CRATES_AT_ONCE = 2
# So many minutes of work count as if they had gone as the tables say, and so many by the clock as the load
# says.
TRUST = 2.0
# Seconds of a stage that no run has measured.
UNKNOWN_STAGE = 10.0
SEED = re.compile(r",? seed \d+,?")
BUILDING = "building"


def rows(name: str) -> dict[str, list[float]]:
    """A table's numbers by the word in its first column."""
    with open(HERE / name, newline="", encoding="utf-8") as file:
        lines = csv.reader(line for line in file if not line.startswith("#"))
        next(lines)
        return {first: [float(number or 0) for number in numbers] for first, *numbers in lines}


def minutes_of_edits(crate: str) -> float:
    """Processor minutes that a crate's wrong bodies take."""
    return rows("gate_minutes.csv").get(crate, [0.0, 0.0, 0.0])[PARTS.index("edits")]


def processors() -> int:
    return len(os.sched_getaffinity(0))


def lanes() -> int:
    """How many checks go side by side: one a processor, as memory allows."""
    fit = os.sysconf("SC_PAGE_SIZE") * os.sysconf("SC_PHYS_PAGES") // MEMORY_OF_A_CHECK
    return max(1, min(processors(), fit))


def share(more: int) -> float:
    """Which part of a processor each process gets, with so many beside those that run now."""
    return min(1.0, processors() / max(os.getloadavg()[0] + more, 1.0))


def stage_name(title: str) -> str:
    """A stage's title without the day's seed, and without what is built."""
    return BUILDING if title.startswith(BUILDING) else SEED.sub("", title)


class Pace:
    """How work goes in this run: what it takes of what the tables say, and how much is done in a minute by
    the clock."""

    def __init__(self, at_once: int, cost: float = 1.0):
        self.at_once, self.done, self.cost_before, self.share = at_once, 0.0, cost, share(at_once)
        self.start, self.ended_before = time.monotonic(), used_seconds()[0]

    def used(self) -> tuple[float, float, float]:
        """Processor minutes of what has ended since this began, of all that is under way, and of the longest
        of it."""
        ended, under_way = used_seconds()
        return (ended - self.ended_before) / 60, sum(under_way) / 60, max(under_way, default=0.0) / 60

    def cost(self) -> float:
        """What work takes here for each minute that the tables say."""
        return (self.used()[0] + TRUST * self.cost_before) / (self.done + TRUST)

    def rate(self) -> float:
        """Processor minutes in a minute by the clock."""
        clock = (time.monotonic() - self.start) / 60
        return max((sum(self.used()[:2]) + TRUST * self.at_once * self.share) / (clock + TRUST), 0.05)

    def each(self) -> float:
        """Which part of a processor each of these processes gets."""
        return min(1.0, max(self.rate() / self.at_once, share(0)))

    def left(self, work: float, chain: float = 0.0) -> float:
        """Minutes by the clock that this work takes still, of which the chain goes one after another."""
        cost = self.cost()
        _, under_way, longest = self.used()
        # (what is under way may take longer than was foretold)
        rest = max(work * cost - under_way, work * cost / 10)
        rest_of_chain = max(chain * cost - longest, chain * cost / 10)
        return max(rest / self.rate(), rest_of_chain / self.each())


class Stages:
    """Stages that run one after another, each by its title, and how long those take that are left."""

    def __init__(self, titles: Iterable[str]):
        known = rows("stage_seconds.csv")
        self.expected = {title: known.get(stage_name(title), [UNKNOWN_STAGE])[0] for title in titles}
        self.ended, self.of_ended = 60 / share(1), 60.0

    def done(self, title: str, seconds: float):
        """Notes that a stage is over, and what it took. What ended a minute before counts half as much."""
        expected = self.expected.pop(title, 0.0)
        weight = 0.5 ** (expected / 60)
        self.ended, self.of_ended = self.ended * weight + seconds, self.of_ended * weight + expected

    def minutes(self) -> float:
        return sum(self.expected.values()) / 60 * self.ended / self.of_ended


class Plan:
    """What is to be done: crates' proofs, tests and what `rt ci` tries, then the other wrong bodies, then
    stages."""

    def __init__(
        self,
        below: dict[str, list[str]],
        crates: list[str],
        tried_by_rt: set[str],
        titles: Iterable[str],
        at_once: int = sys.maxsize,
    ):
        known = rows("gate_minutes.csv")
        # (a crate that has no row takes what the one in the middle does)
        middle = [statistics.median(column) for column in zip(*known.values())]
        self.proofs_left, self.edits_left = {}, {}
        for crate in crates:
            proofs, tests, edits = known.get(crate, middle)
            self.proofs_left |= {(crate, "proofs"): proofs, (crate, "tests"): tests}
            (self.proofs_left if crate in tried_by_rt else self.edits_left)[crate, "edits"] = edits
        self.below, self.stages = below, Stages(titles)
        self.proofs, self.edits = Pace(min(at_once, lanes())), None

    def done(self, *parts: tuple[str, str]):
        """Notes that these parts of crates are over."""
        for part in parts:
            self.proofs.done += self.proofs_left.pop(part, 0.0)
            if self.edits:
                self.edits.done += self.edits_left.pop(part, 0.0)

    def kept(self, *parts: tuple[str, str]):
        """Notes that an earlier run did these, which says nothing of this run's pace."""
        for part in parts:
            self.proofs_left.pop(part, None)
            self.edits_left.pop(part, None)

    def proofs_end(self):
        """All that is left of `rt ci` is over, and the wrong bodies begin: at first as dear as the proofs
        were here."""
        self.done(*list(self.proofs_left))
        self.edits = Pace(min(CRATES_AT_ONCE, lanes()), self.proofs.cost())

    def chain(self) -> float:
        """The most minutes of proofs and tests that are left and wait for one another."""
        sums = {}

        def proofs_below(crate: str) -> float:
            if crate not in sums:
                own = self.proofs_left.get((crate, "proofs"), 0.0)
                sums[crate] = own + max(map(proofs_below, self.below.get(crate, ())), default=0.0)
            return sums[crate]

        longest = 0.0
        for crate, part in self.proofs_left:
            own = self.proofs_left.get((crate, "proofs"), 0.0)
            tests = self.proofs_left[crate, part] - own if part == "tests" else 0.0
            longest = max(longest, proofs_below(crate) + tests)
        return longest

    def minutes(self) -> float:
        """How many minutes by the clock are left."""
        proofs, edits = sum(self.proofs_left.values()), sum(self.edits_left.values())
        left = self.proofs.left(proofs, self.chain()) if proofs else 0.0
        if self.edits:
            left += self.edits.left(edits) if edits else 0.0
        else:
            left += edits * self.proofs.cost() / self.proofs.each() / min(CRATES_AT_ONCE, lanes())
        return left + self.stages.minutes()
