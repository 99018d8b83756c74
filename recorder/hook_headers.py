"""Copies of the compiler's own headers with hooks. Each edit has to fit just so often as it says, else
nothing is written: no header is taken over into this folder."""
import hashlib
import os
import re
import shlex
import subprocess
from dataclasses import dataclass
from pathlib import Path

from recorder import library

HEADERS = "shared_ptr_base.h", "shared_ptr_atomic.h"


class Refusal(Exception):
    """Why no hooks can be had."""


@dataclass
class Edit:
    what: str
    pattern: str
    by: str
    count: int = 1


BASE = [
    Edit(
        "the hooks are included",
        r"(#include <bits/allocated_ptr.h>)",
        r"#include <sptr_recorder_hooks.h>\n\1",
    ),
    Edit(
        "a block is born",
        r"(: _M_use_count\(1\), _M_weak_count\(1\)\s*)\{ \}",
        r"\1{ ::sptr_recorder_born(this); }",
    ),
    Edit("a block dies", r"(~_Sp_counted_base\(\) noexcept\s*)\{ \}", r"\1{ ::sptr_recorder_died(this); }"),
    Edit(
        "the object of a pointer",
        r"(: _M_ptr\(__p\)) \{ \}",
        r"\1 { ::sptr_recorder::object_of_pointer(this, __p); }",
    ),
    Edit(
        "the object of a pointer with a deleter",
        r"(: _M_impl\(__p, std::move\(__d\), (?:_Alloc\(\)|__a)\)) \{ \}",
        r"\1 { ::sptr_recorder::object_of_pointer(this, __p); }",
        2,
    ),
    Edit(
        "the object in a block",
        r"(\n\s*_Sp_counted_ptr_inplace\(_Alloc __a, _Args&&\.\.\. __args\)\s*: _M_impl\(__a\)\s*\{)",
        r"\1 ::sptr_recorder::object_in_place<_Tp>(this, _M_ptr(), sizeof(_Tp));",
    ),
]
ATOMIC = [
    Edit(
        "the type of a pointer",
        r"using pointer = decltype\(__count_type::_M_pi\);",
        "using pointer = _Sp_counted_base<__default_lock_policy>*;\n"
        "\tenum { __is_weak = !__is_shared_ptr<_Tp> };",
    ),
    Edit(
        "an atomic pointer is made",
        r"(: _M_val\(reinterpret_cast<uintptr_t>\()(__c\._M_pi)(\)\)\s*\{)",
        r"\1static_cast<pointer>(\2)\3"
        r" if (__c._M_pi != nullptr)"
        r" ::sptr_recorder_set(&_M_val, static_cast<pointer>(__c._M_pi), __is_weak);",
    ),
    Edit(
        "an atomic pointer is gone",
        r"(if \(auto __pi = reinterpret_cast<pointer>\(__val\)\)\s*\{)",
        r"\1 ::sptr_recorder_set(&_M_val, nullptr, __is_weak);",
    ),
    Edit(
        "an atomic pointer is swapped",
        r"auto __x = reinterpret_cast<uintptr_t>\(__c\._M_pi\);",
        "auto __x = reinterpret_cast<uintptr_t>(static_cast<pointer>(__c._M_pi));\n"
        "\t  ::sptr_recorder_set(&_M_val, static_cast<pointer>(__c._M_pi), __is_weak);",
    ),
]


def edited(text: str, edits: list[Edit], name: str) -> str:
    for edit in edits:
        text, count = re.subn(edit.pattern, edit.by, text)
        if count != edit.count:
            raise Refusal(f'{name}: "{edit.what}" fits {count} times in place of {edit.count}')
    return text


def with_cells(text: str) -> str:
    """The pointer to a block, of owners and then of weak pointers, is of a class that tells each change."""
    parts = text.split("_Sp_counted_base<_Lp>*  _M_pi;")
    if len(parts) != 3:
        raise Refusal(
            f"{HEADERS[0]}: a handle's pointer to its block is there {len(parts) - 1} times in place of 2"
        )
    cell = "::sptr_recorder::cell<_Sp_counted_base<_Lp>, {}> _M_pi;"
    return parts[0] + cell.format(0) + parts[1] + cell.format(1) + parts[2]


def folder_of(compiler: str) -> Path:
    """Where the compiler, which may be several words, has shared_ptr_base.h."""
    try:
        command = [*shlex.split(compiler), "-x", "c++", "-std=c++20", "-M", "-"]
    except ValueError as fault:
        raise Refusal(f"CXX is {compiler}: {fault}") from fault
    ran = subprocess.run(command, input="#include <memory>\n", text=True, capture_output=True)
    found = re.search(r"(\S+)/shared_ptr_base\.h", ran.stdout)
    if not found:
        raise Refusal(f"{compiler} has no bits/shared_ptr_base.h: its standard library is not libstdc++")
    return Path(found[1])


def headers(compiler):
    """The texts of the compiler's headers, with hooks."""
    base, atomic = ((folder_of(compiler) / name).read_text() for name in HEADERS)
    if "_Sp_atomic" in atomic:  # (from GCC 12 on)
        atomic = edited(atomic, ATOMIC, HEADERS[1])
    return with_cells(edited(base, BASE, HEADERS[0])), atomic


def write_whole(path: Path, text: str):
    """Writes a file of which others see all or nothing."""
    part = path.with_name(f"{path.name}.{os.getpid()}.part")
    try:
        part.write_text(text)
        os.replace(part, path)
    except OSError as fault:
        part.unlink(missing_ok=True)
        raise Refusal(f"{path}: {fault.strerror}") from fault


def flags(built: Path) -> str:
    """Compiler and linker flags, with this library. The headers are written anew where the compiler's have
    changed."""
    base, atomic = headers(os.environ.get("CXX", "").strip() or "g++")
    hooks = (library.SOURCES / "hooks.h").read_text()
    key = hashlib.sha256((base + atomic + hooks).encode()).hexdigest()[:16]
    folder = library.home() / key / "sptr_recorder"
    (folder / "bits").mkdir(parents=True, exist_ok=True)
    texts = {
        "sptr_recorder_hooks.h": hooks,
        "bits/shared_ptr_base.h": base,
        "bits/shared_ptr_atomic.h": atomic,
    }
    for name, text in texts.items():
        if not (folder / name).exists():
            write_whole(folder / name, text)
    needed = "-Wl,--push-state,--no-as-needed -lrecorder -Wl,--pop-state"
    link = f"-L{built.parent} -Wl,-rpath,{built.parent} {needed}"
    return f"-isystem {folder} -g {link}"
