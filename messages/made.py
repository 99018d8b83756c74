"""Which statement made each object that is left.

The script is run once more by `left --dot`, each object with the number of its making, from 1, in place of
its fields. Numbers change no act, so the same list of turns makes of it the same run, and each block of the
graph has such a number. What `null` made has no fields, and 0 there: the run's picture has which one it was.
"""

import re
import subprocess
from dataclasses import dataclass

import acts
from language import words_of

MAKES = ("make", "makethis")
BLOCK = re.compile(rb'(?m)^b(\d+) \[label="block \d+\\n(\d+) ')
LANE = re.compile(rb'<text class="lane" x="(\d+)"[^>]*>block (\d+)<')
# A row of a picture: the statement, its act, and one count, right of the block's lane. (The first row of a
# part has counts of all blocks, so that parts share a row.)
NULL = re.compile(
    rb'<text class="statement"[^>]*>(\S+ null \w+)</text>\s*<text class="word"[^>]*>make</text>\s*'
    rb'<text class="count" x="(\d+)"[^>]*>[^<]*</text>(?!\s*<text class="count")'
)
RIGHT = 7


@dataclass
class Making:
    """A statement that makes an object: its thread, its number there, and its words."""

    thread: int
    number: int
    words: str

    def __str__(self):
        return f"{self.thread}.{self.number} {self.words}"


def numbered(script):
    """The script with a number for each object, and the statement of each number."""
    lines, makings, thread, number = [], {}, 1, 0
    for line in script.split(b"\n"):
        words = [] if line.lstrip(b" \t").startswith(b"#") else [it.text for it in words_of(line)]
        if words == ["thread"]:
            thread, number = thread + 1, 0
        elif words and words[0] != "version":
            number += 1
        if len(words) > 1 and words[0] in MAKES:
            makings[len(makings) + 1] = Making(thread, number, " ".join(words))
            line = f"{words[0]} {words[1]} {len(makings)}".encode("latin-1")
        lines.append(line)
    return b"\n".join(lines), makings


def by_null(program: str, options: list[str], script: bytes) -> dict[int, str]:
    """The last `null` that made each block."""
    found = {}
    for picture in acts.pictures(program, options, script, again=1):
        blocks = {int(x) + RIGHT: int(block) for x, block in LANE.findall(picture)}
        found |= {blocks[int(x)]: statement.decode() for statement, x in NULL.findall(picture)}
    return found


def of_blocks(program: str, options: list[str], script: bytes) -> list[str]:
    """A line for each block that is left, in their order; none where the script is refused."""
    given, makings = numbered(script)
    ran = subprocess.run([program, "left", "--dot", *options], input=given, capture_output=True)
    blocks = sorted((int(block), int(number)) for block, number in BLOCK.findall(ran.stdout))
    nulls = by_null(program, options, script) if any(not number for _, number in blocks) else {}
    of = (makings[number] if number else nulls.get(block, "a null") for block, number in blocks)
    return [f"block {block} is of {making}" for (block, _), making in zip(blocks, of)]
