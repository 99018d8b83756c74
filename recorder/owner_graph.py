"""The graph of owners, and its answer."""
import collections
import functools
from collections.abc import Iterator, Sequence
from dataclasses import dataclass, field, replace

from recorder import compiled_search, owner_search
from recorder.compiled_search import Search
from recorder.kinds import Counts
from recorder.memories import Memories
from recorder.record_text import Record

LONGEST_LABEL = 1000
VERDICTS = "leaked", "kept", "ended", "kept"  # by the numbers of the search


@dataclass
class Graph:
    """Objects by number from 1; owners and weak ones as (from, to, label), roots as (to, label). `lost` are
    owners in memory that nothing leads to: in the graph's text they are roots."""

    objects: list = field(default_factory=list)
    owners: list = field(default_factory=list)
    weaks: list = field(default_factory=list)
    roots: list = field(default_factory=list)
    lost: list = field(default_factory=list)
    perhaps: list = field(default_factory=list)  # of each lost: the owner that it may have, or None
    undecided: set = field(default_factory=set)
    # By owner, of equal ones each: what to change where its label can't be a weak pointer.
    changes: dict = field(default_factory=dict)

    def text(self) -> str:
        lines = [f"object {number} {label}" for number, label in enumerate(self.objects, 1)]
        lines += [f"owner {a} {b} {label}" for a, b, label in self.owners]
        lines += [f"weak {a} {b} {label}" for a, b, label in self.weaks]
        lines += [f"root {to} {label}" for to, label in self.roots]
        lines += [f"root {to} an owner in {label}" for to, label in self.lost]
        return "".join(f"{line.rstrip()}\n" for line in lines)


@dataclass
class Knot:
    objects: list
    ties: list
    is_owned: bool  # by another object
    shape: owner_search.Shape
    weakens: list = field(default_factory=list)
    conditions: tuple = ()  # the members that have to own what they point to


@dataclass
class Answer:
    """Verdicts by number: `kept`, `ended` or `leaked`."""

    verdicts: list
    leaked: set
    lost: set  # what only an owner in lost memory keeps
    knots: "Knots"
    perhaps: list = field(default_factory=list)  # knots where members own what they alone point to


@functools.lru_cache(maxsize=None)
def plain(label: str) -> str:
    """A label of the bytes that the graph's text may have."""
    text = "".join(
        character if "!" <= character <= "~" else " " if character == " " else "?" for character in label
    )
    return " ".join(text.split())[:LONGEST_LABEL].strip()


class Knots(Sequence):
    """The knots that a search has found, in the order of their least objects. Each is made when it is asked
    for. One that another object owns has nothing to weaken."""

    def __init__(self, search: Search, owners: list[tuple]):
        self.search, self.owners = search, owners
        self.made, self.shapes, self.weakens = {}, {}, {}  # by the number of a knot, and of its shape

    def __len__(self) -> int:
        return self.search.knots

    def __getitem__(self, at: int) -> Knot:
        if not 0 <= at < len(self):
            raise IndexError(at)
        if at not in self.made:
            self.made[at] = self.knot(at)
        return self.made[at]

    def knot(self, at: int) -> Knot:
        objects, ties = self.search.objects(at), [self.owners[tie] for tie in self.search.ties(at)]
        number, is_owned = self.search.shapes[at], bool(self.search.are_owned[at])
        if number not in self.shapes:
            self.shapes[number] = owner_search.shape_of(objects, ties)
        shape = self.shapes[number]
        if not is_owned and number not in self.weakens:
            self.weakens[number] = owner_search.weakens(len(objects), shape)
        return Knot(objects, ties, is_owned, shape, [] if is_owned else self.weakens[number])

    def groups(self, kinds: list[int], is_told: bytearray) -> list[tuple[Knot, int]]:
        """Of knots alike, of objects of the same kinds, the first one, and how many these are, as far as an
        object is told. Both arguments are by object, with something at place 0."""
        return [(self[at], count) for at, count in self.search.groups(kinds, is_told)]


def ask(graph: Graph) -> Answer:
    """The answer to a graph."""
    roots, lost = [to for to, _ in graph.roots], [to for to, _ in graph.lost]
    search = Search(len(graph.objects), graph.owners, roots, lost)
    numbers, found = range(1, len(graph.objects) + 1), search.verdicts
    answer = Answer(
        list(map(VERDICTS.__getitem__, found)),
        {number for number in numbers if found[number] == compiled_search.LEAKED},
        {number for number in numbers if found[number] == compiled_search.LOST} if lost else set(),
        Knots(search, graph.owners),
    )
    answer.perhaps = list(knots_perhaps(graph)) if any(graph.perhaps) else []
    return answer


def knots_perhaps(graph: Graph) -> Iterator[Knot]:
    """The knots that there are where members own what they alone point to."""
    perhaps = [owner for owner in graph.perhaps if owner]
    roots = [to for to, _ in graph.roots] + [
        to for (to, _), owner in zip(graph.lost, graph.perhaps) if not owner
    ]
    owners, conditional = graph.owners + perhaps, set(perhaps)
    for knot in Knots(Search(len(graph.objects), owners, roots, []), owners):
        conditions = tuple(dict.fromkeys(label for _, _, label in set(knot.ties) & conditional))
        if conditions and not knot.is_owned:
            yield replace(knot, conditions=conditions)


def numbers_of(record: Record) -> list[int]:
    """By block: the number of its object in the graph, from 1; 0 of what has ended."""
    numbers, count = [], 0
    for block in record.blocks:
        count += block.is_live
        numbers.append(count if block.is_live else 0)
    return numbers


def graph_of(record: Record, counts: list[Counts]) -> tuple[Graph, Memories]:
    """The graph of the objects that are left, and the uncertain memory. An owner that a block counts and
    nobody found is a root; where it isn't certain whether a handle owns, it is what it most likely is."""
    numbers = numbers_of(record)
    graph = Graph([plain(block.making.name) for block in record.blocks if block.is_live])
    memories = Memories(record, numbers, counts)
    labels = {spot: plain(spot.label) for spot in record.spots}
    for handle in record.handles:
        to, spot = numbers[handle.block], handle.spot
        if not to:
            continue
        if handle.memory < 0:
            holder, label = numbers[handle.object] if spot.making else 0, labels[spot]
        else:
            holder, label = memories.owner_of(handle) or (0, "")
            label = plain(label)
        is_owner = (handle.guess or handle.kind) != "weak"
        if holder:
            (graph.owners if is_owner else graph.weaks).append((holder, to, label))
            if is_owner and spot.change:
                graph.changes.setdefault(graph.owners[-1], []).append(spot.change)
        elif is_owner and handle.memory < 0:
            graph.roots.append((to, label))
        elif is_owner and memories.is_lost(handle):
            graph.lost.append((to, memories.root_label(handle)))
            owner = memories.perhaps_owner_of(handle)
            graph.perhaps.append((owner[0], to, plain(owner[1])) if owner else None)
        elif is_owner:
            graph.roots.append((to, plain(memories.root_label(handle))))
    for number, count in zip(numbers, counts):
        if number and count.owners_nowhere:
            graph.roots += [(number, "an owner that was not found")] * count.owners_nowhere
    graph.undecided = memories.undecided()
    return graph, memories


def tied_by(knot: Knot) -> collections.Counter:
    return collections.Counter(label for _, _, label in knot.ties)
