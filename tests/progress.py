"""What the lines of `rt ci` and of tests/wrong_bodies tell of how far they are."""

import re

from crates import edits, has_tests
from estimates import PARTS, Plan
from stages import in_words, say

PROVED = re.compile(r"rt: (\w+)(: its tests are)? (?:NOT PROVED|proved)")
KEPT = re.compile(r"rt: (\w+) is kept: ")
BEGUN = re.compile(r"rt: (\w+): trying its must-fail edits")
TRIED = re.compile(r"wrong bodies of (\w+) done: (?:(\d+) rounds?, )?.*; (.*)")


class Progress:
    """Says after each crate that `rt ci` or the wrong bodies are done with how many there are, and how long
    the rest will take."""

    def __init__(self, names: list[str], plan: Plan):
        self.plan, self.names = plan, names
        self.with_tests = sum(map(has_tests, names))
        self.proofs, self.tests = set(), set()

    def watch(self, line: str):
        """Takes a line of `rt ci`."""
        proved, kept, begun = PROVED.match(line), KEPT.match(line), BEGUN.match(line)
        if begun:
            say(f"{begun[1]}: its {edits(begun[1])} wrong bodies have begun")
            # (they have no line at their end)
            self.plan.done((begun[1], "edits"))
        elif kept:
            # (its tests and the edits of `rt ci` are kept too, or as good as done)
            self.proofs.add(kept[1])
            self.tests.update([kept[1]] * has_tests(kept[1]))
            self.plan.kept(*((kept[1], part) for part in PARTS if part != "edits" or edits(kept[1])))
        elif proved:
            (self.tests if proved[2] else self.proofs).add(proved[1])
            self.plan.done((proved[1], "tests" if proved[2] else "proofs"))
            done = f"{len(self.proofs)} of {len(self.names)} crates"
            done += f", {len(self.tests)} of {self.with_tests} with tests"
            say(f"{done}; left: {in_words(self.plan.minutes())}")

    def watch_wrong_bodies(self, line: str):
        """Takes a line of tests/wrong_bodies."""
        tried = TRIED.match(line)
        if tried:
            (self.plan.done if int(tried[2] or 0) else self.plan.kept)((tried[1], "edits"))
            say(f"{tried[3]}; left: {in_words(self.plan.minutes())}")
