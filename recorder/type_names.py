"""Names of types, as a C++ programmer would write them."""
import ctypes
import functools
import re
import shutil

from recorder.asking import Asking
from recorder.record_text import Record

OPENING, CLOSING = "<([{", ">)]}"
DEFAULT_ARGUMENT = re.compile(r", std::(allocator|less|hash|equal_to|char_traits|default_delete)<")
STRING = "std::basic_string<char, std::char_traits<char>, std::allocator<char> >"


def demangled(names: set[str], asking: Asking) -> dict[str, str]:
    """A dictionary from mangled names of types to plain ones."""
    names = sorted(names)
    if not shutil.which("c++filt"):
        return {name: demangled_by_library(name) for name in names}
    text = "\n".join(names) + "\n"
    ran = asking.run(["c++filt", "-t"], input=text, text=True, check=True)
    return dict(zip(names, ran.stdout.split("\n")))


def demangled_by_library(name):
    """The same by the C++ library's own function."""
    try:
        library = ctypes.CDLL("libstdc++.so.6")
    except OSError:
        return name
    library.__cxa_demangle.restype = ctypes.c_void_p
    status = ctypes.c_int()
    found = library.__cxa_demangle(name.encode(), None, None, ctypes.byref(status))
    return ctypes.string_at(found).decode() if found else name


def arguments(name: str) -> list[str]:
    """The template arguments of a type's name."""
    found, depth, begin = [], 0, 0
    for at, letter in enumerate(name):
        if letter in CLOSING and not name.endswith("-", 0, at):
            depth -= 1
            if depth == 0:
                found.append(name[begin:at].strip())
                break
        if letter == "," and depth == 1:
            found.append(name[begin:at].strip())
            begin = at + 1
        if letter in OPENING:
            depth += 1
            if depth == 1:
                begin = at + 1
    return found


def template_of(name, at):
    """The template among whose arguments a place in a name lies."""
    depth = 0
    while at and (depth or name[at] != "<"):
        depth += (name[at] == ">") - (name[at] == "<")
        at -= 1
    return re.search(r"[\w:]*$", name[:at])[0]


def without_defaults(name):
    """A name without arguments that templates of the library have where none are given, as
    `, std::allocator<..>`."""
    begin = 0
    while found := DEFAULT_ARGUMENT.search(name, begin):
        depth, at = 0, found.end() - 1
        while True:
            depth += (name[at] == "<") - (name[at] == ">")
            at += 1
            if depth == 0 or at == len(name):
                break
        begin = found.start()
        is_given = name[found.end() : at - 1].strip() == "void"
        is_own = found[1] != "allocator" and not template_of(name, begin - 1).startswith("std::")
        if is_given or is_own:
            begin = found.end()
        else:
            name = name[:begin] + name[at:]
    return name


@functools.lru_cache(maxsize=None)
def short(name: str) -> str:
    """The same type in fewer letters."""
    name = name.replace("std::__cxx11::", "std::").replace("std::__debug::", "std::")
    name = without_defaults(name.replace(STRING, "std::string"))
    return re.sub(r" +>", ">", name)


def hooked_type(function: str) -> str:
    """The type in the text of a hook's own function, as in `void f(void*, Object*) [with Object = Node]`."""
    found = re.search(r"\[(?:with )?Object = (.*)\]$", function)
    return re.split(r"; \w+ = ", found[1])[0] if found else ""


def name_makings(record: Record):
    """Gives each making its object's type: what it really is where it has virtual functions, else what its
    maker said; and the record the plain names of types of other memory."""
    names = {
        name
        for making in record.makings
        for name in (making.control_type, making.dynamic_type)
        if name != "-"
    }
    names |= {spot.told for spot in record.spots if spot.has_table} | {block[-1] for block in record.unseen}
    plain = record.plain = demangled(names, record.asking)
    for making in record.makings:
        if making.dynamic_type != "-":
            making.name = plain[making.dynamic_type]
        elif making.control_type != "-":
            making.name = declared_type(making.kind, plain[making.control_type])
        else:
            making.name = hooked_type(making.told_type) or "an object without a type"


def declared_type(kind: str, control: str) -> str:
    """The type of an object by its control block's."""
    given = arguments(control)
    name = given[0] if given else control
    if kind == "array":
        name = (arguments(name) or [name])[0]
    if (kind in ("plain", "deleter") or control.startswith("boost::")) and name.endswith("*"):
        name = name[:-1].strip()
    return re.sub(r"^(const|volatile) |( const| volatile)$", "", name)
