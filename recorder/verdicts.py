"""What a record says of each object that is left: kept, leaked but reached by a raw pointer, or leaked."""
import collections
import functools
from collections.abc import Iterable
from dataclasses import dataclass, field

from recorder import debug_information, kinds, labels, mending, owner_graph, type_names
from recorder.owner_graph import Answer, Graph, Knot
from recorder.record_text import Making, Record
from recorder.suppressions import Suppression


def kind_of(making: Making) -> tuple[str, str]:
    """The type of such objects and the place of their making."""
    return type_names.short(making.name), making.made


@dataclass
class Findings:
    """Objects are numbered as in the graph, from 1. `reached` has from where a raw pointer leads to a leaked
    object; `met` is how many blocks count just the handles that were found."""

    record: Record
    graph: Graph
    answer: Answer
    blocks: list
    met: int
    reached: dict = field(default_factory=dict)
    suppressed: dict = field(default_factory=dict)  # by object, why it is left out
    compared: str = ""  # how the proved answer differs, or `the same`; nothing where it wasn't asked

    @functools.cached_property
    def alarming(self) -> set[int]:
        """What is leaked or lost for certain."""
        return (
            (self.answer.leaked | self.answer.lost)
            - set(self.reached)
            - self.graph.undecided
            - set(self.suppressed)
        )

    @property
    def undecided(self) -> set[int]:
        return self.graph.undecided - set(self.reached) - set(self.suppressed)

    @property
    def reached_and_told(self) -> dict[int, str]:
        return {number: label for number, label in self.reached.items() if number not in self.suppressed}

    def kind(self, number: int) -> tuple[str, str]:
        """An object's type and the place of its making."""
        return kind_of(self.blocks[number - 1].making)

    @functools.cached_property
    def alarming_knots(self) -> list[tuple[Knot, int]]:
        """Of the knots that are told the first of those that are tied alike, of the same types, by the same
        members; and how many these are."""
        makings, knots = [block.making for block in self.blocks], self.answer.knots
        if self.graph.changes:
            return self.alike([*knots, *self.answer.perhaps], makings)
        numbers, is_told = {}, bytearray(len(makings) + 1)
        for number in self.alarming:
            is_told[number] = 1
        kinds = [0, *(numbers.setdefault(making, len(numbers)) for making in makings)]
        return knots.groups(kinds, is_told) + self.alike(self.answer.perhaps, makings)

    def alike(self, knots: list[Knot], makings: list[Making]) -> list[tuple[Knot, int]]:
        found, alarming, changes = collections.Counter(), self.alarming, self.graph.changes
        first = {}
        for knot in knots:
            if any(number in alarming for number in knot.objects):  # (others may be suppressed)
                types = tuple([makings[number - 1] for number in knot.objects])
                changed = tuple(mending.changes_of(knot, changes)) if changes else ()
                key = types, knot.shape, knot.is_owned, changed, knot.conditions
                first.setdefault(key, knot)
                found[key] += 1
        return [(knot, found[key]) for key, knot in first.items()]


def findings_of(record: Record, suppressed: Iterable[Suppression] = ()) -> Findings:
    """All that can be told of a record that isn't refused, without what is suppressed."""
    type_names.name_makings(record)
    debug_information.name_places(record)
    answers = debug_information.ask_about(record)
    labels.drop_beyond(record, answers)
    labels.label_places(record, answers)
    labels.drop_other_numbers(record)
    counts = kinds.decide_kinds(record)
    graph, memories = owner_graph.graph_of(record, counts)
    answer = owner_graph.ask(graph)
    leaked = {at for at, number in enumerate(memories.numbers) if number in answer.leaked}
    if kinds.drop_from_storage(record, counts, leaked):
        graph, memories = owner_graph.graph_of(record, counts)
        answer = owner_graph.ask(graph)
    blocks = [block for block in record.blocks if block.is_live]
    found = Findings(record, graph, answer, blocks, sum(counted.are_met for counted in counts))
    found.reached = reached_by_raw_pointers(record, graph, answer, memories)
    found.suppressed = reasons(found, suppressed)
    return found


def reasons(found, suppressed):
    """By object: why a user's file leaves it out."""
    left_out = {}
    for number in sorted(found.alarming | found.undecided | set(found.reached)) if suppressed else ():
        for suppression in suppressed:
            if suppression.names(*found.kind(number)):
                suppression.is_used = True
                left_out.setdefault(number, suppression.reason)
    found.__dict__.pop("alarming", None)  # (which was asked without these)
    return left_out


def reached_by_raw_pointers(record, graph, answer, memories):
    """Of the leaked, those that raw pointers lead to from a static, a thread or a kept object, and whatever
    these own or point to: each with where the first pointer lies."""
    raw, first = collections.defaultdict(list), []
    unreached = answer.leaked | answer.lost
    if not unreached:
        return {}
    for pointer in record.raw_pointers:
        to, holder = memories.numbers[pointer.to], memories.holder(pointer)
        if not to:
            continue
        if pointer.memory >= 0:
            if pointer.memory in memories.kept_memories:
                first.append((to, memories.root_label(pointer)))
            elif holder:
                raw[holder].append(to)
        elif holder in unreached:
            raw[holder].append(to)
        elif holder or pointer.spot.kind in ("static", "thread-local", "stack", "mapped", "kernel"):
            first.append((to, pointer.spot.label))
    for a, b, _ in graph.owners if first else ():
        raw[a].append(b)
    reached = {}
    todo = collections.deque(first)
    while todo:
        number, label = todo.popleft()
        if number in unreached and number not in reached:
            reached[number] = label
            todo.extend((to, label) for to in raw[number])
    return reached
