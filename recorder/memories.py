"""Memory behind plain pointers, of which it isn't certain whose it is: who owns it as far as debug
information can say, and whether anything that is kept leads there."""
import collections
import functools

from recorder.kinds import Counts
from recorder.labels import NOBODY, is_raw
from recorder.record_text import Handle, Link, RawPointer, Record, Spot


class Memories:
    """Objects are numbers from 1, by block in `numbers`, which has 0 for what has ended. Memory is the number
    of its first chunk. `owners` has of each memory that an object owns that object and by what."""

    def __init__(self, record: Record, numbers: list[int], counts: list[Counts]):
        self.record, self.numbers, self.counts = record, numbers, counts
        self.open = {
            numbers[at]: counted for at, counted in enumerate(counts) if counted.open and numbers[at]
        }
        self.owners = self.found_owners()
        self.pointed_from = {}
        for link in reversed(record.links):
            if self.holder(link) or link.spot.kind == "epoll":
                self.pointed_from[link.to] = link.spot.label

    @functools.cached_property
    def kept_of_both(self) -> tuple[set[int], set[int]]:
        """The objects and the memory that a path of owners and pointers may lead to from a root."""
        return self.reached(surely=False)

    @property
    def kept_memories(self) -> set[int]:
        return self.kept_of_both[1]

    @functools.cached_property
    def kept_by_owners(self) -> set[int]:
        """The objects that a path of owners alone may lead to."""
        return self.reached(surely=False, by_owners=True)[0] if self.record.links else self.kept_of_both[0]

    def undecided(self) -> set[int]:
        """The objects that are kept by some answers to what the open handles are, and by others not."""
        return self.kept_of_both[0] - self.reached(surely=True)[0] if self.open else set()

    def holder(self, pointer: Handle | RawPointer | Link) -> int:
        """The object that something lies in, or 0."""
        return self.numbers[pointer.object] if pointer.spot.making else 0

    @functools.cached_property
    def pointed_to(self) -> dict[int, list[int]]:
        """By node: the nodes of memory to which pointers lead from there."""
        first, found = self.node_of_memory(0), collections.defaultdict(list)
        for link in self.record.links:
            found[first + link.memory if link.memory >= 0 else self.holder(link)].append(first + link.to)
        return found

    def may_own(self, spot: Spot) -> bool:
        """Whether a pointer may own what it leads to. Where registers were not read, another owner may be
        there, so that it has to be one of a type that is known."""
        return not is_raw(spot.declared) and bool(spot.declared or not self.record.unread)

    def found_owners(self) -> dict[int, tuple[int, str]]:
        """By memory: the object that owns it and by what, over pointers that can own, the nearest first."""
        behind, found, todo = collections.defaultdict(list), {}, collections.deque()
        may_own = {spot: self.may_own(spot) for spot in self.record.spots}
        for link in self.record.links:
            if link.is_number or not may_own[link.spot]:
                continue
            if link.memory >= 0:
                behind[link.memory].append(link.to)
            elif link.to not in found and self.holder(link):
                found[link.to] = self.holder(link), link.spot.label
                todo.append(link.to)
        while todo:
            memory = todo.popleft()
            for to in behind[memory]:
                if to not in found:
                    found[to] = found[memory]
                    todo.append(to)
        return found

    def reached(self, surely: bool, by_owners: bool = False) -> tuple[set[int], set[int]]:
        """The objects and the memory that roots lead to, `by_owners` alone or by pointers too. An open handle
        counts as an owner; or, where that has to be sure, only with so many others that all of them can't be
        weak."""
        leads, perhaps, enough = collections.defaultdict(list), collections.defaultdict(list), {}
        for handle in self.record.handles:
            number = self.numbers[handle.block]
            if not number or handle.kind == "weak":
                continue
            if surely and handle.kind == "either":
                enough[number] = self.open[number].open - self.open[number].least_owners
                perhaps[self.node_of(handle)].append(number)
            else:
                leads[self.node_of(handle)].append(number)
        if by_owners:
            for memory, (number, _) in self.owners.items():
                leads[number].append(self.node_of_memory(memory))
        pointed_to = {} if by_owners else self.pointed_to
        todo = [
            0,
            *(
                number
                for number, counted in zip(self.numbers, self.counts)
                if number and counted.owners_nowhere
            ),
        ]
        found = set(todo)
        while todo:
            node = todo.pop()
            to = [*leads.get(node, ()), *pointed_to.get(node, ())]
            for number in perhaps.get(node, ()):
                enough[number] -= 1
                if enough[number] < 0:
                    to.append(number)
            for end in to:
                if end not in found:
                    found.add(end)
                    todo.append(end)
        first = self.node_of_memory(0)
        return {node for node in found if 0 < node < first}, {node - first for node in found if node >= first}

    def node_of_memory(self, memory: int) -> int:
        """Nodes are numbers: 0 is all that is no object's, then come objects by theirs, then memory by its
        own."""
        return len(self.numbers) + 1 + memory

    def node_of(self, handle: Handle) -> int:
        """What a handle is a part of."""
        return self.node_of_memory(handle.memory) if handle.memory >= 0 else self.holder(handle)

    def owner_of(self, handle: Handle) -> tuple[int, str] | None:
        """The object that has a handle in uncertain memory, and by what; None where that is a root or
        nobody."""
        owner = self.owners.get(handle.memory)
        is_kept = handle.memory in self.kept_memories
        return owner if owner and (owner[0] in self.kept_by_owners or not is_kept) else None

    @functools.cached_property
    def sole_links(self) -> dict[int, Link]:
        return {link.to: link for link in self.record.links if link.is_sole}

    def perhaps_owner_of(self, handle: Handle) -> tuple[int, str] | None:
        """The object whose member alone leads to a handle in lost memory, and that member: it may own that,
        as a container does that isn't std's."""
        link, seen = self.sole_links.get(handle.memory), set()
        while link and link.memory >= 0 and link.memory not in seen:
            seen.add(link.memory)
            link = self.sole_links.get(link.memory)
        return (self.holder(link), link.spot.label) if link and self.holder(link) else None

    def is_lost(self, pointer: Handle | RawPointer) -> bool:
        """Whether nothing that is kept leads to it, and no object owns it. Memory that was not looked at may
        lead there, and so may registers that were not read."""
        is_all_read = not self.record.mapped_bytes and not self.record.unread
        return (
            is_all_read
            and pointer.memory >= 0
            and pointer.memory not in self.kept_memories
            and pointer.memory not in self.owners
        )

    def root_label(self, pointer: Handle | RawPointer) -> str:
        """By what an owner there is kept, or what is known of its memory where it is lost."""
        if pointer.memory < 0:
            return pointer.spot.label
        from_ = self.pointed_from.get(pointer.memory)
        if self.is_lost(pointer):
            return f"memory that only {from_} points to" if from_ else "memory that nothing points to"
        if pointer.memory not in self.kept_memories:
            return NOBODY
        return f"memory that {from_} points to" if from_ else NOBODY
