"""Whether a handle owns or watches, where only memory told of it: by what the counts leave, by the declared
type, by other handles in the same member, and by all these together."""
import collections
import re
from collections.abc import Iterable

from recorder.record_text import Block, Handle, Record

MOST_MEMBERS = 12  # of those that depend on each other, to be tried in each way
MOST_ANSWERS = 32
MAY_CHANGE = re.compile(r"^std::variant<| or ")  # a declared type, whose members may own here and watch there


class Counts:
    """The handles on one block, beside what it counts itself."""

    __slots__ = "handles", "owners_wanted", "weaks_wanted", "owners_missing", "weaks_missing", "open"

    def __init__(self, block: Block, handles: list[Handle]):
        self.handles = handles
        self.owners_wanted, self.weaks_wanted = block.uses, block.weaks - block.is_live
        self.count()

    def count(self):
        self.owners_missing, self.weaks_missing, self.open = self.owners_wanted, self.weaks_wanted, 0
        for handle in self.handles:
            if handle.kind == "owner":
                self.owners_missing -= 1
            elif handle.kind == "weak":
                self.weaks_missing -= 1
            else:
                self.open += 1

    @property
    def are_met(self):
        return not (self.owners_missing or self.weaks_missing or self.open)

    @property
    def least_owners(self):
        """How many of the open handles own at least, as the others would be too many weak pointers."""
        return min(max(self.open - max(self.weaks_missing, 0), 0), max(self.owners_missing, 0))

    @property
    def most_owners(self):
        return min(self.open, max(self.owners_missing, 0))

    @property
    def owners_nowhere(self):
        """How many owners are at no handle that was found, whatever the open ones are."""
        return max(self.owners_missing - self.open, 0)

    def decide(self):
        """What is open is all of one kind where the other is found already."""
        if self.weaks_missing <= 0 < self.owners_missing:
            self.set_open("owner")
        elif self.owners_missing <= 0 < self.weaks_missing:
            self.set_open("weak")

    def set_open(self, kind: str):
        for handle in self.handles:
            if handle.kind == "either":
                handle.kind = kind
        self.count()

    def drop(self, kind: str, excess: int):
        """Drops so many of a kind that lie in statics themselves."""
        if excess <= 0:
            return
        for handle in [handle for handle in self.handles if handle.kind == kind and handle.spot.is_in_static][
            :excess
        ]:
            handle.kind = "old"
        self.forget_old()

    def forget_old(self):
        self.handles = [handle for handle in self.handles if handle.kind != "old"]
        self.count()


MET = Counts(Block(None, 0, 0, 0), [])  # of all blocks on which nothing is left to decide


def is_storage(handle: Handle) -> bool:
    """Whether the declared type is bytes, in which anything may have been."""
    return bool(re.search(r"\b(char|byte)\b|aligned_storage|aligned_buffer", handle.spot.declared))


def drop_from_storage(record: Record, counts: list[Counts], leaked: set[int]) -> bool:
    """Where more owners are found than a block counts, those that lie in mere bytes of leaked objects are old
    ones. What leaks is the same without them. Where the true owner may lie in memory that was not looked at,
    all of them may be old. Returns whether there were some."""
    dropped = False
    for counted in counts:
        excess = len(counted.handles) if record.mapped_bytes else -counted.owners_missing
        if excess <= 0:
            continue
        old = [owner for owner in counted.handles if owner.kind == "owner" and is_storage(owner)]
        old = [owner for owner in old if owner.spot.kind == "object" and owner.object in leaked]
        for owner in old[:excess]:
            owner.kind = "old"
            dropped = True
        counted.forget_old()
    if dropped:
        record.handles = [handle for handle in record.handles if handle.kind != "old"]
    return dropped


def kind_by_type(declared: str) -> str:
    is_weak = "weak_ptr<" in declared or "enable_shared_from_this<" in declared
    is_owner = "shared_ptr<" in declared
    return "either" if is_weak == is_owner else "weak" if is_weak else "owner"


def member_of(handle: Handle) -> tuple:
    """What handles of one declaration have in common, and with no other where each may be of another kind."""
    spot = handle.spot
    name = spot.making.name if spot.making else spot.number
    own = id(handle) if MAY_CHANGE.search(spot.declared) else 0
    return spot.kind, name, spot.offset, spot.inner + handle.byte, spot.maker, spot.told, own


def decided_at_once(record: Record) -> list[bool]:
    """Decides the handles of each block on which just as many were found as it counts, and the open ones are
    all of one kind. Returns by block whether that was so."""
    owners, weaks = [block.uses for block in record.blocks], [
        block.weaks - block.is_live for block in record.blocks
    ]
    open_ = [0] * len(owners)
    for handle in record.handles:
        if handle.kind == "either":
            open_[handle.block] += 1
        elif handle.kind == "owner":
            owners[handle.block] -= 1
        else:
            weaks[handle.block] -= 1
    is_met = [a + b == c and not a * b for a, b, c in zip(owners, weaks, open_)]
    for handle in record.handles:
        if handle.kind == "either" and is_met[handle.block]:
            handle.kind = "owner" if owners[handle.block] else "weak"
    return [False] * len(is_met) if record.mapped_bytes else is_met  # (what is met may be so by chance)


def decide_kinds(record: Record) -> list[Counts]:
    """Decides each handle as far as it can be. Returns the counts of each block."""
    is_met = decided_at_once(record)
    on = {number: [] for number, is_one in enumerate(is_met) if not is_one}
    for handle in record.handles:
        if not is_met[handle.block]:
            on[handle.block].append(handle)
    counts = [MET] * len(is_met)
    for number, handles in on.items():
        counts[number] = Counts(record.blocks[number], handles)
    hard = [counts[number] for number in on]
    if record.when == "exit":
        drop_old(hard)
    known = collections.defaultdict(set)
    undecided = hard
    while True:
        for counted in undecided:
            counted.decide()
        undecided = [counted for counted in undecided if counted.open]
        if not undecided or not by_declaration(record, undecided, known):
            break
    if undecided:
        Together(undecided).decide()
    if record.when == "exit":
        drop_old(counted for counted in hard if not counted.are_met)
    record.handles = [handle for handle in record.handles if handle.kind != "old"]
    return counts


def by_declaration(record: Record, undecided: list[Counts], known: dict) -> bool:
    """Decides by declared types, and by what other handles in the same member are. Returns whether it decided
    any."""
    for handle in record.handles:
        if handle.kind in ("owner", "weak"):
            known[member_of(handle)].add(handle.kind)
    changed = False
    for counts in undecided:
        for handle in counts.handles:
            if handle.kind == "either":
                same = known[member_of(handle)]
                kind = kind_by_type(handle.spot.declared)
                handle.kind = next(iter(same)) if kind == "either" and len(same) == 1 else kind
                changed |= handle.kind != "either"
        counts.count()
    return changed


def drop_old(counts: Iterable[Counts]):
    """After the destructors of statics these keep their old bytes: where more handles are found than a block
    counts, those in statics are no handles any more."""
    for counted in counts:
        counted.drop("either", counted.open - max(counted.owners_missing, 0) - max(counted.weaks_missing, 0))
        counted.drop("owner", -counted.owners_missing)
        counted.drop("weak", -counted.weaks_missing)


class Together:
    """The members whose handles are open: all handles in one member are of one kind, and each block has as
    many owners among them as it counts. Where one answer alone fits, it is that. Where several do, the
    handles stay open, and `guess` is the kind that each would have in the likeliest."""

    def __init__(self, undecided: list[Counts]):
        self.undecided = undecided
        self.rows_of = collections.defaultdict(list)
        for row in dict.fromkeys(self.row_of(counted) for counted in undecided):
            for member, _ in row[0]:
                self.rows_of[member].append(row)
        open_ = [handle for counted in undecided for handle in counted.handles if handle.kind == "either"]
        self.own_members = {member_of(handle) for handle in open_ if handle.is_of_itself}

    def open_members(self, counts: Counts):
        return collections.Counter(member_of(handle) for handle in counts.handles if handle.kind == "either")

    def row_of(self, counts: Counts):
        return frozenset(self.open_members(counts).items()), counts.least_owners, counts.most_owners

    def decide(self):
        kinds, guesses = {}, {}
        for members in self.parts():
            answers = self.answers(members)
            for at, member in enumerate(members):
                found = {answer[at] for answer in answers}
                if len(found) == 1:
                    kinds[member] = found.pop()
                if answers:
                    guesses[member] = answers[0][at]
        for counted in self.undecided:
            for handle in counted.handles:
                if handle.kind == "either":
                    member = member_of(handle)
                    handle.kind = kinds.get(member, "either")
                    handle.guess = guesses.get(member, "owner")
            counted.count()
            counted.decide()
            guess_the_rest(counted)

    def parts(self):
        """The members in parts that have no row in common."""
        left = dict.fromkeys(self.rows_of)
        while left:
            first, _ = left.popitem()
            part, todo, rows = [first], [first], set()
            while todo:
                for row in self.rows_of[todo.pop()]:
                    if row in rows:
                        continue
                    rows.add(row)
                    for member, _ in row[0]:
                        if member in left:
                            del left[member]
                            part.append(member)
                            todo.append(member)
            yield part

    def answers(self, members: list) -> list[tuple]:
        """Each choice of kinds that fits all rows, the likeliest first; none where there are too many
        members."""
        if len(members) > MOST_MEMBERS:
            return []
        rows = {row for member in members for row in self.rows_of[member]}
        found = []
        for number in range(1 << len(members)):
            owners = {member for at, member in enumerate(members) if number >> at & 1}
            if all(low <= sum(n for member, n in row if member in owners) <= high for row, low, high in rows):
                found.append(tuple("owner" if member in owners else "weak" for member in members))
        likely = sorted(found, key=lambda kinds: self.strangeness(members, kinds))
        return likely if len(found) <= MOST_ANSWERS else []

    def strangeness(self, members: list, kinds: tuple) -> int:
        """How many objects would own themselves by a member of their own, as enable_shared_from_this watches
        them."""
        return sum(kind == "owner" and member in self.own_members for member, kind in zip(members, kinds))


def guess_the_rest(counts: Counts):
    """The open handles of one block are guessed to be as many owners as it counts, those first that own
    nothing of themselves."""
    open_ = [handle for handle in counts.handles if handle.kind == "either"]
    owners = sum(handle.guess == "owner" for handle in open_)
    if counts.least_owners <= owners <= counts.most_owners:
        return
    open_.sort(key=lambda handle: (handle.guess != "owner", handle.is_of_itself))
    for at, handle in enumerate(open_):
        handle.guess = "owner" if at < counts.most_owners else "weak"
