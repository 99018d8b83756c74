"""What mends a knot: the members, or the captures and the like behind them, that are to be weak."""
import collections

from recorder import owner_search
from recorder.owner_graph import Knot


def changes_of(knot: Knot, changes: dict) -> list[str]:
    """By tie: what is to be weak in its place, the labelled member where nothing else is known."""
    known = {tie: iter(changes.get(tie, ())) for tie in knot.ties}
    return [next(known[tie], tie[2]) for tie in knot.ties]


def ordered(ways, ties):
    """First those of owners that mostly point at an object not younger than their own."""
    older, count = collections.Counter(), collections.Counter()
    for a, b, label in ties:
        count[label] += 1
        older[label] += b <= a
    share = {label: older[label] / count[label] for label in count}
    found = [tuple(sorted(way, key=lambda label: -share[label])) for way in ways]
    return sorted(found, key=lambda way: -sum(share[label] for label in way))


def by_label(knot: Knot) -> list[tuple]:
    """A knot's labels to weaken, or pairs, first those that mostly point back."""
    return ordered(knot.weakens, knot.ties)


def by_change(knot: Knot, changes: dict) -> list[tuple]:
    """The ways to mend a knot, each all that is to be weak. Where one of a member's several changes is
    enough, the others aren't told."""
    ties = [(a, b, change) for (a, b, _), change in zip(knot.ties, changes_of(knot, changes))]
    if ties == knot.ties or knot.is_owned:
        return by_label(knot)
    found = owner_search.weakens(len(knot.objects), owner_search.shape_of(knot.objects, ties))
    enough = {way[0] for way in found if len(way) == 1}
    members = [whole_members(labels, knot, ties) for labels in knot.weakens]
    if any(len(labels) == 1 for labels in knot.weakens):
        found = [*(found if enough else ()), *(way for way in members if not enough & set(way))]
    return ordered(found or members, ties)


def whole_members(labels, knot, ties):
    """All changes of some labels; a label itself where one of its ties has no other."""
    found = {label: {} for label in labels}
    for (_, _, label), (_, _, change) in zip(knot.ties, ties):
        if label in found:
            found[label][change] = None
    changes = [[label] if label in of_label else of_label for label, of_label in found.items()]
    return tuple(dict.fromkeys(change for of_label in changes for change in of_label))
