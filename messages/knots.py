"""Knots of what `sptr left` tells that no pointer alone cuts, and the pairs of pointers that do."""

import re
from collections.abc import Iterator
from itertools import combinations

# As many pointers tie a knot of which pairs are tried, at most.
MOST = 20
WHY = "circles run through each other, or another knot owns it"


def owners_of(text: str) -> dict[str, list[str]]:
    """By block the places of its owners."""
    owners: dict[str, list[str]] = {}
    for line in text.splitlines():
        if block := re.match(r"block (\d+) ", line):
            places = owners.setdefault(block[1], [])
        elif place := re.match(r"  owner in (\S+)", line):
            places.append(place[1])
    return owners


def ends(blocks: set[str], owners: dict[str, list[str]], weak: tuple[str, ...]) -> bool:
    """Whether each of these objects ends where these owners are weak."""
    left = set(blocks)

    def is_kept(block: str) -> bool:
        holders = [place.partition(".")[0] for place in owners[block] if place not in weak]
        return any(it in left or it not in blocks for it in holders)

    while gone := {block for block in left if not is_kept(block)}:
        left -= gone
    return not left


def uncut(output: bytes) -> Iterator[str]:
    """A line for each knot that no pointer alone cuts, and for each pair that cuts it."""
    text = output.decode("latin-1")
    owners = owners_of(text)
    for knot in re.split(r"(?m)^cycle ", text)[1:]:
        if "\ncut " in knot:
            continue
        ties = knot.partition("\n")[0].split()
        yield f"no pointer alone cuts the knot of {' '.join(ties)}: {WHY}"
        blocks = {tie.partition(".")[0] for tie in ties}
        for pair in combinations(ties, 2) if len(ties) <= MOST else []:
            if ends(blocks, owners, pair):
                yield f"these two do: {' and '.join(pair)}"
