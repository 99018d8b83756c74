"""Within gdb: which callable a function calls, or which coroutine it resumes, and where that is defined."""
import re

import gdb

OWN_CALLABLE = "__closure", "this"
FRAMES = "frame_ptr", "__coro_frame"
MOST_BYTES = 1 << 16  # of a function that is looked through
MOST_FUNCTIONS = 12  # that are looked through for a callable


def calls_of(block):
    """The functions that a function calls, by their addresses."""
    architecture = gdb.selected_inferior().architecture()
    for line in architecture.disassemble(block.start, block.end - 1):
        target = re.match(r"(?:call|jmp)q?\s+(?:\*)?0x([0-9a-f]+)", line["asm"])
        if target:
            yield int(target[1], 16)


def function_block(address):
    """The block of the function that begins at an address: that of a lambda lies within its own
    function's."""
    blocks, block = [], gdb.block_for_pc(address)
    while block:
        blocks += [block] if block.function else []
        block = block.superblock
    begun = [outer for outer in blocks if outer.start == address]
    return (begun or blocks or [None])[-1]


def callable_in(block):
    """(type, file, line) of the callable whose own code lies in a function, itself or inlined: the
    outermost, as it may call others that are inlined into it."""
    architecture, found = gdb.selected_inferior().architecture(), None
    for line in architecture.disassemble(block.start, block.end - 1):
        functions = functions_at(line["addr"], block)
        while functions and not has_callable(functions[0]):
            del functions[0]
        if not functions:
            continue
        file, number = place_in(functions, line["addr"])
        if number and not re.search(r"/include/c\+\+/", file) and (not found or number < found[2]):
            found = callable_type(functions[0]), file, number
    return found


def place_in(functions, address):
    """The file and the line of an address in the first of these functions, which are inlined each into the
    one before. (The line of one that is inlined is that of its call.)"""
    place = functions[1].function if functions[1:] else gdb.find_pc_line(address)
    return place.symtab.filename if place.symtab else "", place.line


def functions_at(address, block):
    """The blocks of functions inlined at an address of a function, the outermost first, which is its own.
    One around it has another range, as of the function that a lambda is written in."""
    found, inner = [], gdb.block_for_pc(address)
    while inner:
        found += [inner] if inner.function else []
        inner = inner.superblock
    found.reverse()
    own = [at for at, inner in enumerate(found) if (inner.start, inner.end) == (block.start, block.end)]
    return found[own[0] :] if own else []


def has_callable(block):
    name = str(block.function)
    return re.search(r"operator\(\)", name) and not name.startswith("std::") and callable_type(block)


def callable_type(block):
    """The type of the object whose own function a block is."""
    for symbol in block:
        if symbol.is_argument and symbol.name in OWN_CALLABLE and symbol.type.code == gdb.TYPE_CODE_PTR:
            return symbol.type.target().strip_typedefs()
    return None


def callable_at(address):
    """The callable that the function at an address calls, in it or in what it calls."""
    todo, seen = [address], set()
    while todo and len(seen) < MOST_FUNCTIONS:
        at = todo.pop(0)
        block = function_block(at) if at not in seen else None
        seen.add(at)
        if not block or block.end - block.start > MOST_BYTES:
            continue
        found = callable_in(block)
        if found:
            return found
        todo += calls_of(block)
    return None


def coroutine_at(address):
    """The frame that the function at an address resumes, and where that is defined."""
    block = function_block(address)
    for symbol in block or ():
        if symbol.name in FRAMES:
            type_ = symbol.type.target() if symbol.type.code == gdb.TYPE_CODE_PTR else symbol.type
            place = gdb.find_pc_line(address)
            return type_.strip_typedefs(), place.symtab.filename, block.function.line or place.line
    return None
