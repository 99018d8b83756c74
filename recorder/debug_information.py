"""What a module's debug information says: by gdb of types and symbols, by addr2line of places."""
import bisect
import collections
import functools
import json
import os
import re
import shutil
import subprocess
import tempfile
from pathlib import Path

from recorder.asking import Asking
from recorder.record_text import Making, Record, Spot
from recorder.type_names import short

HERE = Path(__file__).resolve().parent
OF_THE_SYSTEM = "/lib/", "/lib64/", "/usr/lib/"
NOT_OURS = re.compile(r"^/usr/(local/)?include/|/include/c\+\+/|/recorder/library/|sptr_recorder|^\?\?")
# What has brackets or spaces in a function's name that enclose nothing.
WITH_BRACKETS = re.compile(
    r"operator(\(\)|[^\w\s(]+ ?| (?=\w))|\(anonymous namespace\)|\{lambda\(.*?\)#\d+\}|->"
)
OF_THE_LIBRARY = "std::", "__gnu_cxx::", "sptr_recorder", "operator new", "__cxx_global_var_init"


class Answers:
    """What gdb said of members and sizes by type, of symbols, callables and functions' names by module and
    byte; each may be missing. Of a type there are several answers where units have classes of one name."""

    def __init__(self):
        self.members, self.sizes, self.symbols = (
            collections.defaultdict(dict),
            collections.defaultdict(dict),
            {},
        )
        self.callables, self.names = {}, {}
        self.without_types = set()  # places in units that have no types

    def add(self, module: int, said: dict):
        for name, units in said["members"].items():
            for address, places in units.items():
                self.members[name][module, int(address)] = {
                    at: {int(inner): member for inner, member in found.items()} for at, found in places
                }
        for name, units in said["sizes"].items():
            for address, size in units.items():
                self.sizes[name][module, int(address)] = size
        for kind, to in ("symbols", self.symbols), ("callables", self.callables), ("names", self.names):
            to.update({(module, int(at)): found for at, found in said[kind].items()})
        self.without_types |= {(module, at) for at in said["without_types"]}

    @functools.lru_cache(maxsize=None)
    def of_unit(self, what: str, name: str, unit: tuple):
        """What is said of a class in a unit, else what all modules say alike."""
        by_unit = getattr(self, what)[name]
        if unit in by_unit:
            return by_unit[unit]
        found = [answer for (_, address), answer in by_unit.items() if not address]
        return found[0] if found and all(answer == found[0] for answer in found) else None

    def member(self, name: str, making: Making | None, offset: int, inner: int) -> list:
        """The declaring class, the path and the declared type of what lies at a byte of a type, and the same
        of what a unique pointer there points to; nothing where it isn't known."""
        if making and (self.size(making) or 0) > making.size and making.kind != "array":
            return []
        found = (self.of_unit("members", name, making.unit if making else ()) or {}).get(offset, {})
        return found.get(inner) or found.get(-1, [])

    def member_within(self, name: str, offset: int) -> list:
        """The same of a type that memory seems to be of; nothing where the byte lies beyond that."""
        size = self.of_unit("sizes", name, ())
        return self.member(name, None, offset, -1) if size and offset < size else []

    def size(self, making: Making) -> int | None:
        return self.of_unit("sizes", making.name, making.unit)


def ask_gdb(path: str, questions: dict, asking: Asking) -> dict | None:
    """What gdb answers about one module, or None."""
    with tempfile.TemporaryDirectory() as folder:
        asked, answered = Path(folder, "questions"), Path(folder, "answers")
        asked.write_text(json.dumps(questions))
        names = {"RECORDER_QUESTIONS": str(asked), "RECORDER_ANSWERS": str(answered)}
        command = ["gdb", "-batch", "-nx", "-iex", "set auto-load off", "-iex", "set debuginfod enabled off"]
        command += ["-ex", f"python import sys; sys.path.insert(0, {str(HERE.parent)!r})"]
        command += ["-ex", f"source {HERE}/members_in_gdb.py", path]
        asking.run(command, env={**os.environ, **names}, stdin=subprocess.DEVNULL)
        return json.loads(answered.read_text()) if answered.exists() and answered.stat().st_size else None


class Questions:
    """All that the record's places ask."""

    def __init__(self, record: Record):
        self.record = record
        self.places, self.units = collections.defaultdict(
            lambda: collections.defaultdict(set)
        ), collections.defaultdict(set)
        self.symbols, self.names = collections.defaultdict(set), collections.defaultdict(set)
        self.callables = collections.defaultdict(lambda: collections.defaultdict(set))
        self.modules = Modules(record)
        for spot in record.spots:
            self.ask(spot)

    def ask(self, spot: Spot):
        if spot.kind == "object":
            making = spot.making
            self.places[making.name][spot.offset].add(spot.inner if spot.is_pointed else -1)
            self.units[making.name].add(making.unit)
        elif spot.kind == "static":
            self.symbols[spot.number].add(spot.offset)
        if spot.has_table:
            self.places[self.record.plain[spot.told]][spot.inner].add(-1)
        elif spot.maker in ("f", "c", "a"):
            module, at = self.modules.place_of(int(spot.told, 16))
            if spot.maker == "a":
                self.names[module].add(at)
            else:
                self.callables[module][at, spot.maker == "c"].add(spot.inner)

    def of_module(self, number: int, is_of_the_system: bool) -> dict:
        """Of the system's libraries only symbols are asked."""
        types = {}
        for name, places in self.places.items():
            units = sorted(at for module, at in filter(None, self.units[name]) if module == number)
            types[name] = [(at, sorted(inner)) for at, inner in sorted(places.items())], [0, *units]
        callables = {
            at: (is_coroutine, sorted(offsets))
            for (at, is_coroutine), offsets in self.callables[number].items()
        }
        units = {at for _, (_, *of_type) in types.values() for at in of_type}
        return {
            "types": {} if is_of_the_system else types,
            "units": [] if is_of_the_system else sorted(units),
            "symbols": sorted(self.symbols[number]),
            "callables": {} if is_of_the_system else callables,
            "names": sorted(self.names[number]),
        }


def ask_about(record: Record) -> Answers:
    """The answers to all that the record's places ask."""
    answers = Answers()
    if not shutil.which("gdb"):
        return answers
    questions = Questions(record)
    for number, (_, path) in enumerate(record.modules):
        asked = questions.of_module(number, path.startswith(OF_THE_SYSTEM) and number > 0)
        if os.path.exists(path) and any(asked.values()):
            said = ask_gdb(path, asked, record.asking)
            if said:
                answers.add(number, said)
    return answers


class Modules:
    """The program and its libraries, by where they lie."""

    def __init__(self, record: Record):
        self.record = record
        self.bases = sorted((base, number) for number, (base, _) in enumerate(record.modules))

    def place_of(self, address: int) -> tuple[int, int]:
        """The number of the module that has an address, and the byte in it."""
        place = bisect.bisect_right(self.bases, (address, len(self.bases))) - 1
        base, number = self.bases[max(place, 0)]
        return number, address - base


def own_name(function: str) -> str:
    """A function's name without its result, its arguments and what follows these."""
    masked = WITH_BRACKETS.sub(lambda match: "_" * len(match[0]), function)
    depth, begin, end = 0, 0, len(masked)
    for at, letter in enumerate(masked):
        depth -= letter in ")}>"
        if depth == 0 and letter == " ":
            begin = at + 1
        if depth == 0 and letter == "(":
            end = at
            break
        depth += letter in "({<"
    return function[begin:end]


def symbolizer():
    """What tells of addresses: LLVM's where it is there, as binutils' reads clang's inlined calls wrongly."""
    llvm = shutil.which("llvm-symbolizer")
    return (
        [llvm, "--output-style=GNU", "-C", "-f", "-i", "-a", "-e"] if llvm else ["addr2line", "-Cfia", "-e"]
    )


def lines_of(path: str, addresses: set[int], asking: Asking) -> dict[int, list[tuple]]:
    """Of each address in a module: the functions there and their places, the innermost first."""
    if not shutil.which(symbolizer()[0]) or not shutil.which("c++filt"):
        return {}
    text = "".join(f"{address:#x}\n" for address in addresses)
    how = {"text": True, "errors": "replace"}
    said = asking.run([*symbolizer(), path], input=text, **how).stdout
    lines = asking.run(["c++filt"], input=said, **how).stdout.split("\n")
    found = {}
    at = None
    for line in lines:
        if re.fullmatch(r"0x[0-9a-f]+", line):
            at = found.setdefault(int(line, 16), [])
        elif line and at is not None:
            at.append(line)
    return {address: list(zip(said[1::2], said[0::2])) for address, said in found.items()}


def short_path(place: str) -> str:
    """A place, from the current folder where it lies below that."""
    path, _, line = place.split(" (")[0].rpartition(":")
    try:
        below = os.path.relpath(path) if path.startswith("/") else path
    except FileNotFoundError:  # (of the current folder, which is gone)
        below = path
    return f'{path if below.startswith("..") else below}:{line}'


def first_place(frames: list[tuple]) -> tuple[str, tuple]:
    """The first with a place that isn't the library's, else the first function alone; and the unit where it
    is known."""
    for unit, place, name in frames:
        if not NOT_OURS.search(place):
            return f"at {short_path(place)} in {short(name)}", unit
    return (f"in {short(frames[0][2])}" if frames and frames[0][2] != "??" else ""), ()


def name_places(record: Record):
    """Gives each making its place: the first on the stack that isn't the library's."""
    modules, asked = Modules(record), collections.defaultdict(set)
    for frames in {making.frames for making in record.makings}:
        for frame in frames:
            number, at = modules.place_of(frame - 1)
            if not re.search(r"/lib(c|stdc\+\+|gcc_s)\.so", record.modules[number][1]):
                asked[number].add(at)
    said = {
        (number, at): places
        for number, addresses in asked.items()
        for at, places in lines_of(record.modules[number][1], addresses, record.asking).items()
    }
    places = {}
    for making in record.makings:
        frames = making.frames
        if frames not in places:
            units = [modules.place_of(frame - 1) for frame in frames]
            every = [(unit, place, own_name(name)) for unit in units for place, name in said.get(unit, [])]
            ours = [
                frame
                for frame in every
                if not frame[2].startswith(OF_THE_LIBRARY) and "std::_Sp_counted_" not in frame[2]
            ]
            stack = tuple(
                f"{short(name)} at {short_path(place)}"
                for _, place, name in ours
                if not place.startswith("??")
            )
            places[frames] = *first_place(ours), stack
        making.made, making.unit, making.stack = places[frames]
