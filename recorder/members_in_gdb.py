"""Run by gdb: reads questions from the file in RECORDER_QUESTIONS and writes answers to the one in
RECORDER_ANSWERS.

For each type and byte: the class that declares the member there, the member's path in it and its declared
type; of what a std::unique_ptr there points to, the same. For each byte of a module: the symbol there. For
each function that calls a callable or resumes a coroutine: where that is defined, and what it captures."""
import functools
import json
import os
import re
import struct

import gdb

from recorder.callables_in_gdb import callable_at, coroutine_at

CONTAINERS_OF_MEMBERS = "std::pair<", "std::array<", "std::tuple<", "std::_Tuple_impl<", "std::_Head_base<"
HANDLES_OF_BOOST = "boost::shared_ptr<", "boost::weak_ptr<", "boost::enable_shared_from_this<"
TYPES_OF_UNITS = {}


def size_of(type_):
    return type_.strip_typedefs().sizeof


def name_of(type_):
    return type_.name or str(type_.unqualified())


def is_of_the_library(name):
    """Whether it is told as a whole, and not by its own members."""
    is_std = name.startswith("std::") and not name.startswith(CONTAINERS_OF_MEMBERS)
    return is_std or name.startswith(HANDLES_OF_BOOST)


def begin_of(field):
    """The byte where a field begins, or None where only the object itself knows, as of a virtual base."""
    try:
        return field.bitpos // 8
    except (AttributeError, TypeError):
        return None


def virtual_bases(type_, found=None):
    """The names of a class's virtual bases, its bases' own too, in their order."""
    found = {} if found is None else found
    for field in type_.fields():
        if field.is_base_class:
            virtual_bases(field.type.strip_typedefs(), found)
            if begin_of(field) is None:
                found.setdefault(name_of(field.type), None)
    return list(found)


@functools.lru_cache(maxsize=None)
def begins_of_virtual_bases(name):
    """By name: where each begins in a whole object of a class. Its table of virtual functions has them
    backwards, before the first 0, which is where the object itself begins."""
    bases, found = virtual_bases(gdb.lookup_type(name).strip_typedefs()), {}
    try:
        at = int(gdb.parse_and_eval(f"(long)&'vtable for {name}'"))
        words = struct.unpack("<16q", gdb.selected_inferior().read_memory(at, 128).tobytes())
    except gdb.error:
        return found
    before = words[: words.index(0)] if 0 in words else ()
    return dict(zip(bases, reversed(before)))


def direct_fields(type_):
    found = ((field, begin_of(field)) for field in type_.fields())
    return [(field, begin) for field, begin in found if begin is not None]


def all_fields(type_):
    """Fields and where they begin, first virtual bases: other bases seem to reach as far as these do."""
    if any(field.is_base_class for field in type_.fields()):
        for base, begin in begins_of_virtual_bases(name_of(type_)).items() if virtual_bases(type_) else ():
            yield VirtualBase(gdb.lookup_type(base)), begin
    yield from direct_fields(type_)


class Either:
    """A type in place of several that a union may have at one place."""

    def __init__(self, types):
        self.name = " or ".join(dict.fromkeys(map(name_of, types)))


class VirtualBase:
    """A field that is a virtual base, at any depth."""

    is_base_class, name = True, None

    def __init__(self, type_):
        self.type = type_


def field_at(type_, offset, is_whole=False):
    """The field that the byte lies in, and where that begins; virtual bases of a whole object come last in
    it."""
    found = None
    for field, begin in all_fields(type_) if is_whole else direct_fields(type_):
        size = size_of(field.type)
        if begin <= offset and (offset < begin + size or size == 0) and (size or not found):
            found = field, begin
            if isinstance(field, VirtualBase):
                return found
    return found


def leaf_of_union(type_, offset):
    """(path, type) of what lies at a byte of a union: of an owner before all, then of a weak pointer, then of
    what else may hold such. Where both kinds may lie there the type names both."""
    fields = [field for field, _ in direct_fields(type_) if offset < size_of(field.type)]
    leaves = [(field.name, *leaf_at(field.type, offset)[1:]) for field in fields]
    kinds = "shared_ptr<", "weak_ptr<", "std::", ""
    ranked = [[leaf for leaf in leaves if kind in name_of(leaf[2])] for kind in kinds]
    field, path, leaf = next(found[0] for found in ranked if found)
    if ranked[0] and ranked[1]:
        leaf = Either([ranked[0][0][2], ranked[1][0][2]])
    return [name for name in (field, path) if name], leaf


def leaf_at(type_, offset):
    """(declaring class, path, type) of what lies at a byte of a type."""
    type_ = type_.strip_typedefs()
    declaring, path = name_of(type_), []
    offset %= max(type_.sizeof, 1)  # (of an array's object)
    is_whole = True
    while True:
        name = name_of(type_)
        if is_of_the_library(name):
            return declaring, ".".join(path), type_
        if type_.code == gdb.TYPE_CODE_ARRAY:
            type_ = type_.target().strip_typedefs()
            offset %= max(type_.sizeof, 1)
            continue
        if type_.code == gdb.TYPE_CODE_UNION and offset < type_.sizeof:
            inner, leaf = leaf_of_union(type_, offset)
            return declaring, ".".join(path + inner), leaf
        field = field_at(type_, offset, is_whole) if type_.code == gdb.TYPE_CODE_STRUCT else None
        if not field:
            return declaring, ".".join(path), type_
        (member, begin), type_ = field, field[0].type.strip_typedefs()
        offset -= begin
        is_whole = not member.is_base_class
        if member.is_base_class and not is_of_the_library(name_of(type_)) and not path:
            declaring = name_of(type_)
        elif not member.is_base_class and member.name and not name.startswith(CONTAINERS_OF_MEMBERS):
            path.append(member.name)


def members_at(type_, offset, inner_bytes):
    """By -1: (declaring class, path, declared type) at a byte. Where that is a unique pointer also by each
    byte of what it points to: the same, and these three of what lies there."""
    declaring, path, leaf = leaf_at(type_, offset)
    own = declaring, path, name_of(leaf)
    found = {-1: own}
    if own[2].startswith("std::unique_ptr<"):
        for inner in inner_bytes:
            try:
                target = leaf.template_argument(0)
                if target.strip_typedefs().code == gdb.TYPE_CODE_STRUCT and inner >= size_of(target):
                    continue  # (it is of a class derived from that)
                declaring, path, pointed = leaf_at(target, inner)
                found[inner] = *own, declaring, path, name_of(pointed)
            except (gdb.error, RuntimeError):
                pass
    return found


def symbol_at(offset):
    text = gdb.execute(f"info symbol {offset:#x}", to_string=True)
    return text.split(" in section")[0].split(" + ")[0] if " in section" in text else ""


def declared_as(symbol):
    try:
        return str(gdb.parse_and_eval(f"'{symbol}'").type.strip_typedefs()) if symbol else ""
    except gdb.error:
        return ""


def types_of_scopes(address):
    """By name, for both scopes of the unit of a place of code: the types in them."""
    block = gdb.block_for_pc(address) if address else None
    for scope in (block.static_block, block.global_block) if block else ():
        key = scope.is_global, scope.start, scope.end
        if key not in TYPES_OF_UNITS:
            TYPES_OF_UNITS[key] = {
                symbol.name: symbol for symbol in scope if symbol.addr_class == gdb.SYMBOL_LOC_TYPEDEF
            }
        yield TYPES_OF_UNITS[key]


def type_in_unit(name, address):
    """The type of this name in the unit of a place of code, None where that has none."""
    found = [types[name].type for types in types_of_scopes(address) if name in types]
    return found[0] if found else None


def has_no_types(address):
    """Whether a unit has places and no types, as by -g1."""
    scopes = list(types_of_scopes(address))
    return bool(scopes) and not any(scopes)


def spellings(name):
    """A type's name as the demangler writes it, and as compilers do in debug information: numbers among a
    template's arguments without suffixes, characters by their signs, enumerators by their names."""
    yield name
    plain = re.sub(r"(?<=[<( ,-])(\d+)(?:ull|ll|ul|l|u)(?=[,>])", r"\1", name)
    yield plain
    plain = re.sub(r"\(char\)(\d+)", lambda match: repr(chr(int(match[1]))), plain)
    plain = re.sub(r"\([\w:]+\)-?\d+", enumerator, plain).replace("(decltype(nullptr))0", "nullptr")
    for null in "std::nullptr_t", "nullptr":
        spelled = plain.replace("decltype(nullptr)", null)
        yield from (spelled, spelled.replace(" (", "("))


def enumerator(number):
    try:
        return str(gdb.parse_and_eval(number[0]))
    except gdb.error:
        return number[0]


def looked_up(name):
    for spelled in spellings(name):
        try:
            return gdb.lookup_type(spelled)
        except gdb.error:
            pass
    return None


def types_by_unit(name, units):
    """By unit, which is an address in it: the type of this name there. Each unit may have its own. One that
    isn't known has that of any, but in a namespace without a name, where the others' is another."""
    found = {}
    for address in units:
        try:
            found[address] = type_in_unit(name, address)
            if not found[address] and "(anonymous namespace)" not in name:
                found[address] = looked_up(name)
        except gdb.error:
            pass
    return {address: type_ for address, type_ in found.items() if type_ and size_of(type_)}


def captured(address, is_coroutine, offsets):
    """Where a callable is defined; and by byte the name of what it captures there and its declared type."""
    try:
        type_, file, line = coroutine_at(address) if is_coroutine else callable_at(address)
    except (gdb.error, RuntimeError, TypeError):
        return None
    found = {}
    for offset in offsets:
        _, path, leaf = leaf_at(type_, offset)
        if "_ptr<" in name_of(leaf):
            found[offset] = re.sub(r"^_+(?=\w)|(?<=\.)__(?=\w)", "", path), name_of(leaf)
    return {"file": file, "line": line, "captures": found}


def answers(questions):
    members, sizes = {}, {}
    for name, (places, units) in questions["types"].items():
        types = types_by_unit(name, units)
        members[name] = {
            address: [(offset, members_at(type_, offset, inner_bytes)) for offset, inner_bytes in places]
            for address, type_ in types.items()
        }
        sizes[name] = {address: size_of(type_) for address, type_ in types.items()}
    symbols = {offset: symbol_at(offset) for offset in questions["symbols"]}
    return {
        "members": members,
        "sizes": sizes,
        "symbols": {at: (symbol, declared_as(symbol)) for at, symbol in symbols.items()},
        "callables": {at: captured(int(at), *asked) for at, asked in questions["callables"].items()},
        "names": {at: symbol_at(at) for at in questions["names"]},
        "without_types": [unit for unit in questions["units"] if has_no_types(unit)],
    }


with open(os.environ["RECORDER_QUESTIONS"]) as file:
    asked = json.load(file)
with open(os.environ["RECORDER_ANSWERS"], "w") as file:
    json.dump(answers(asked), file)
