"""What a programmer calls the memory that a word lies in, and whether its declared type can own."""
import functools
import os
import re

from recorder.debug_information import Answers, Modules, short_path
from recorder.record_text import Making, Record, Spot
from recorder.type_names import short

NOBODY = "heap memory that nothing points to"
PLACES = {
    "thread-local": "a thread-local variable",
    "epoll": "an epoll that no thread waits in",
    "kernel": "the kernel, by an epoll or a timer",
    "mapped": "memory that the program mapped itself",
}
# Types that have no room for a handle: where one seems to lie in such a member, the object is another.
NO_HANDLE = re.compile(r"(unsigned |signed )?(bool|short|int|long|long long|float|double|wchar_t)|[^(]*\*")
# Declared types of a number that is no file's.
NO_FILE = re.compile(r"unsigned .*|bool|char|short|float|double|wchar_t|[^(]*\*")
WORD = 8  # a handle is told by its second, the first is the pointer to its object


def label_places(record: Record, answers: Answers):
    """Gives each spot its name, its declared type where that is known, and what else is to be changed where
    the named member can't be a weak pointer."""
    labels = Labels(record, answers)
    for making in record.makings:
        making.has_types = making.unit not in answers.without_types
    for spot in record.spots:
        spot.label, spot.declared, spot.change = labels.of(spot)


class Labels:
    """The names of spots."""

    def __init__(self, record: Record, answers: Answers):
        self.record, self.answers = record, answers
        self.modules = Modules(record)

    def of(self, spot: Spot) -> tuple[str, str, str]:
        label, declared, change = self.of_holder(spot)
        inner, text = self.inside(spot, label)
        if spot.is_uncertain and not text and not change:
            text = f"in what {label} points to"  # (a plain pointer can't be made weak)
        return label, inner or declared, text or change

    def of_holder(self, spot: Spot) -> tuple[str, str, str]:
        if spot.kind == "object":
            return self.in_object(spot)
        if spot.kind == "deleter":
            return f"deleter of {short(spot.making.name)}", "", ""
        if spot.kind == "static":
            path = self.record.modules[spot.number][1]
            symbol, declared = self.answers.symbols.get((spot.number, spot.offset), ("", ""))
            return short(symbol) or f"{os.path.basename(path)}+{spot.offset:#x}", declared, ""
        if spot.kind == "stack":
            return f"the stack of thread {spot.number}", "", ""
        return PLACES.get(spot.kind, NOBODY), "", ""

    def in_object(self, spot: Spot) -> tuple[str, str, str]:
        """`Class::member`, or the type and the byte."""
        inner = spot.inner if spot.is_pointed else -1
        found = self.answers.member(spot.making.name, spot.making, spot.offset, inner)
        is_handle = spot.is_of_handle and spot.inner < 0
        if not found or not found[1] or is_handle and NO_HANDLE.fullmatch(found[2]):
            # (a base of the library's has a type and no name)
            declared = found[2] if found and "enable_shared_from_this<" in found[2] else ""
            return f"{short(spot.making.name)} at byte {spot.offset - WORD * is_handle}", declared, ""
        declaring, path, declared, *pointed = found
        if not pointed:
            return f"{short(declaring)}::{path}", declared, ""
        change = f"{short(pointed[0])}::{pointed[1]}" if pointed[1] else ""
        return f"{short(declaring)}::{path}", pointed[2], change

    def inside(self, spot: Spot, label: str) -> tuple[str, str]:
        """The declared type in a chunk that says itself of which type it is, and what to change there."""
        kind = spot.maker
        if spot.has_table:
            found = self.answers.member_within(self.record.plain[spot.told], spot.inner)
            return (found[2], f"{short(found[0])}::{found[1]}") if found and found[1] else ("", "")
        if kind not in ("a", "c", "f"):
            return "", ""
        at = self.modules.place_of(int(spot.told, 16))
        if kind == "a":
            held = re.search(r"_Manager_external<(.*)>::_S_manage", self.answers.names.get(at) or "")
            type_ = held[1].strip() if held else ""
            return (type_, f"in {label}, which holds a {short(type_)}") if held else ("", "")
        found = self.answers.callables.get(at)
        if not found:
            return "", ""
        name, type_ = found["captures"].get(str(spot.inner), ("", ""))
        what = "coroutine" if kind == "c" else "lambda"
        place_text = short_path(f"{found['file']}:{found['line']}")
        where = f"in the {what} at {place_text}"
        return type_, f"{where}, which {'keeps' if kind == 'c' else 'captures'} {name}" if name else where


@functools.lru_cache(maxsize=None)
def is_raw(declared: str) -> bool:
    """Whether a type is a raw pointer or a reference, an iterator, or a container of such: what owns
    nothing."""
    if declared.endswith(("*", "&")) or re.search(r"_iterator\b|::iterator\b", declared):
        return True
    owns = re.search(r"_ptr<|std::(function|any|optional|variant)\b|coroutine_handle|\)", declared)
    return not owns and bool(re.search(r"\*( const)?[,>]", declared))


def drop_other_numbers(record: Record):
    """What looks like the number of an epoll is another where its declared type says so."""
    record.links = [
        link for link in record.links if not (link.is_number and NO_FILE.fullmatch(link.spot.declared))
    ]


def drop_beyond(record: Record, answers: Answers):
    """In a pool an object is as large as its type, or at most as the least of the same type that another
    follows: what lies beyond is somebody else's."""
    least = {}
    for making in record.makings:
        if making.in_pool and making.size:
            least[making.control_type] = min(making.size, least.get(making.control_type, making.size))

    def is_beyond(making: Making, offset: int) -> bool:
        size = answers.size(making) or least.get(making.control_type, making.size)
        return making.in_pool and making.kind != "array" and offset >= size

    for spot in record.spots:
        if spot.kind == "object" and spot.inner < 0 and is_beyond(spot.making, spot.offset):
            spot.kind, spot.making, spot.offset = "heap", None, 0
    record.raw_pointers = [
        pointer
        for pointer in record.raw_pointers
        if not is_beyond(record.blocks[pointer.to].making, pointer.to_byte)
    ]
