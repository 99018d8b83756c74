"""Reads what the library wrote of a process's memory."""
import itertools
from array import array
from collections.abc import Iterable
from dataclasses import dataclass, field
from pathlib import Path

from recorder.asking import Asking


@dataclass(slots=True, eq=False)
class Making:
    """What blocks have in common that were made alike: by the same calls, of the same type and size."""

    kind: str
    in_pool: bool
    size: int
    control_type: str
    dynamic_type: str
    frames: tuple
    told_type: str = ""
    name: str = ""
    made: str = ""
    stack: tuple = ()  # the places and functions of its frames
    unit: tuple = ()  # the module and the byte of the first that is the user's
    has_types: bool = True  # where its unit has debug information


@dataclass(slots=True)
class Block:
    making: Making
    at: int
    uses: int
    weaks: int

    @property
    def is_live(self):
        return self.uses > 0


@dataclass(slots=True, eq=False)
class Spot:
    """Where words lie that have one name: at a byte of the objects of one making, or of the blocks of their
    deleters; of a module's statics, of a thread's variables or stack, or on the heap. `inner` is the byte in
    a chunk that pointers lead to from `offset`, or -1; `is_uncertain` where it isn't known for certain whose
    this chunk is. `maker` says of which type the chunk is, or `-`."""

    kind: str
    number: int  # of the module or the thread
    making: Making | None
    offset: int
    inner: int
    is_uncertain: bool
    is_of_handle: bool
    maker: str
    told: str = ""  # by the maker: a type or an address
    label: str = ""
    declared: str = ""
    change: str = ""  # what to change where that isn't the labelled member itself

    @property
    def is_in_object(self):
        return self.making is not None

    @property
    def has_table(self):
        """Whether the chunk has a table of virtual functions, of its own or of its first member."""
        return self.maker in ("v", "w")

    @property
    def is_pointed(self):
        """Whether it is what its holder's own pointer points to."""
        return self.maker in ("d", "w")

    @property
    def is_in_static(self):
        return self.kind in ("static", "thread-local") and self.inner < 0


@dataclass(slots=True)
class Handle:
    """`object` is the number of the block in whose object it lies, or -1; `byte` its place in a vector;
    `memory` the number of the chunk of which it isn't certain whose it is, or -1."""

    kind: str
    block: int
    object: int
    spot: Spot
    byte: int
    memory: int
    guess: str = ""  # of `owner` or `weak`, where its kind stays `either`

    @property
    def is_of_itself(self):
        """Whether it lies in the very object that it is on."""
        return self.object == self.block and self.spot.kind == "object" and self.spot.inner < 0


@dataclass(slots=True)
class RawPointer:
    to: int
    to_byte: int
    object: int
    spot: Spot
    memory: int


@dataclass(slots=True)
class Link:
    """A pointer to memory of which it isn't certain whose it is; or an epoll's number, which owns nothing."""

    to: int
    is_number: int
    is_sole: int  # it alone leads there, to the beginning, from what was there before
    object: int
    spot: Spot
    memory: int


@dataclass
class Record:
    how: str = ""
    when: str = ""
    refused: str = ""
    modules: list = field(default_factory=list)
    makings: list = field(default_factory=list)
    spots: list = field(default_factory=list)  # of handles, raw pointers and links
    blocks: list = field(default_factory=list)
    handles: list = field(default_factory=list)
    raw_pointers: list = field(default_factory=list)
    links: list = field(default_factory=list)
    plain: dict = field(default_factory=dict)  # names of types by their mangled ones
    untyped: int = 0
    lost: int = 0
    unread: int = 0  # threads whose registers were not read
    closed: list = field(default_factory=list)  # (how many control blocks, of which closed library)
    # Where objects aren't looked at: (the kind of memory, how many, the kind of control block, its type).
    unseen: list = field(default_factory=list)
    mapped_bytes: int = 0  # of memory that the program mapped itself and that was not looked at
    milliseconds: int = 0  # that the reading of memory took
    asking: Asking = field(default_factory=Asking)  # of the programs that know names


HANDLES = "owner", "weak", "either"


def making_of(words: list[str]) -> Making:
    frames = tuple(int(word, 16) for word in words[5:])
    return Making(words[0], words[1] == "1", int(words[2]), words[3], words[4], frames)


def spot_of(words: list[str], makings: list[Making]) -> Spot:
    kind, number, offset, inner = words[0], *map(int, words[1:4])
    making = makings[number] if kind in ("object", "deleter") else None
    return Spot(
        kind, 0 if making else number, making, offset, inner, words[4] == "1", words[5] == "1", *words[6:]
    )


class Columns:
    """The numbers of many rows, by the table and the name of the column: of each column one line."""

    def __init__(self):
        self.columns = {}

    def add(self, name: str, text: str):
        """First come how many rows there are and the kind of numbers, then these by their bytes. Where one is
        there, it is that of all rows."""
        count, kind, digits = text.split(" ")
        column = array(kind, bytes.fromhex(digits))
        self.columns[name] = itertools.repeat(column[0], int(count)) if len(column) == 1 else column

    def of(self, table: str, names: str) -> list[Iterable[int]]:
        return [self.columns.pop(f"{table}.{name}", ()) for name in names.split()]


def fill(record: Record, columns: Columns):
    """Makes blocks, handles and pointers of the columns."""
    making, *rest = columns.of("blocks", "making at uses weaks")
    record.blocks = list(map(Block, map(record.makings.__getitem__, making), *rest))

    spot_of_number = record.spots.__getitem__
    kind, block, object_, spot, *rest = columns.of("handles", "kind block object spot byte memory")
    kinds = map(HANDLES.__getitem__, kind)
    record.handles = list(map(Handle, kinds, block, object_, map(spot_of_number, spot), *rest))
    to, to_byte, object_, spot, memory = columns.of("raw", "to to_byte object spot memory")
    record.raw_pointers = list(map(RawPointer, to, to_byte, object_, map(spot_of_number, spot), memory))
    to, is_number, is_sole, object_, spot, memory = columns.of(
        "links", "to is_number is_sole object spot memory"
    )
    record.links = list(map(Link, to, is_number, is_sole, object_, map(spot_of_number, spot), memory))


def read(path: Path) -> Record:
    """The record in a file, whose last line has to be `end`."""
    record, line, columns = Record(), "", Columns()
    with open(path, errors="replace") as lines:
        for line in lines:
            kind, _, rest = line.rstrip("\n").partition(" ")
            if "." in kind:
                columns.add(kind, rest)
            elif kind == "making":
                record.makings.append(making_of(rest.split()))
            elif kind == "told":
                record.makings[-1].told_type = rest
            elif kind == "spot":
                record.spots.append(spot_of(rest.split(), record.makings))
            elif kind == "closed":
                count, library = rest.split(" ", 1)
                record.closed.append((int(count), library))
            elif kind == "module":
                base, file = rest.split(" ", 1)
                record.modules.append((int(base, 16), file))
            elif kind == "unseen":
                where, count, *block = rest.split()
                record.unseen.append((where, int(count), *block))
            elif kind == "recorded":
                record.how, record.when = rest.split()
            elif kind == "refused":
                record.refused = rest.strip()
            elif kind in ("untyped", "lost", "unread", "mapped_bytes", "milliseconds"):
                setattr(record, kind, int(rest))
    if line.strip() != "end":
        raise ValueError("it is not whole")
    fill(record, columns)
    return record
