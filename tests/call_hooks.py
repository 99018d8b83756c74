"""A copy of the compiler's own shared_ptr_base.h that tells each call on a handle. Each edit has to fit just
as often as it says, else there is no copy."""
import sys
from pathlib import Path

TESTS = Path(__file__).resolve().parent
sys.dont_write_bytecode = True
# (before tests/, which has a folder of that name)
sys.path.insert(0, str(TESTS.parent))
from recorder.hook_headers import HEADERS, Edit, edited, folder_of

OWNER, WEAK = "__shared_count", "__weak_count"
MADE_OF_ANOTHER = r" noexcept\s*: _M_pi\(__r\._M_pi\)\s*"
# Functions on one handle or two, by how they begin, each with the call that it is.
FUNCTIONS = [
    ("reset", rf"~{OWNER}\(\) noexcept\s*"),
    ("copy", rf"{OWNER}\(const {OWNER}& __r\){MADE_OF_ANOTHER}"),
    ("copy", rf"operator=\(const {OWNER}& __r\) noexcept\s*"),
    ("swap", rf"_M_swap\({OWNER}& __r\) noexcept\s*"),
    ("wreset", rf"~{WEAK}\(\) noexcept\s*"),
    ("weak", rf"{WEAK}\(const {OWNER}<_Lp>& __r\){MADE_OF_ANOTHER}"),
    ("weak", rf"operator=\(const {OWNER}<_Lp>& __r\) noexcept\s*"),
    ("wcopy", rf"{WEAK}\(const {WEAK}& __r\){MADE_OF_ANOTHER}"),
    ("wcopy", rf"operator=\(const {WEAK}& __r\) noexcept\s*"),
    ("wmove", rf"{WEAK}\({WEAK}&& __r\){MADE_OF_ANOTHER}"),
    ("wmove", rf"operator=\({WEAK}&& __r\) noexcept\s*"),
    ("wswap", rf"_M_swap\({WEAK}& __r\) noexcept\s*"),
]
# Statements that set a handle to a new object, and the tests of a lock.
MAKES = r"(\b_M_pi = (?:new _Sp_counted_ptr<_Ptr, _Lp>\(__p\)|__mem|__pi);)"
LOCKS = r"_M_pi->_M_add_ref_lock_nothrow\(\)"
FAILED_LOCK = rf"(if \(_M_pi && !{LOCKS}\)\s*_M_pi = nullptr;)"
FAILED_UPGRADE = rf"if \((_M_pi == nullptr \|\| !{LOCKS})\)(\s*__throw_bad_weak_ptr\(\);)"
# What is asked of handles: that of weak pointers has `expired` behind it.
COUNT = r"_M_refcount\._M_get_use_count\(\)"
USE_COUNT = rf"(use_count\(\) const noexcept\s*\{{ return )({COUNT});"
EXPIRED = rf"(expired\(\) const noexcept\s*\{{ return )({COUNT} == 0);"


def note(call, *words):
    return f'::call_hooks::note({", ".join([chr(34) + call + chr(34), *words])});'


def told(call, answer):
    return f'::call_hooks::told("{call}", &_M_refcount, {answer});'


def at_begin(call, begin):
    """A function's first statement tells of its handle, and of the one that it is given."""
    return Edit(call, rf"({begin}\{{)", rf'\1 {note(call, "this", *["&__r"] * ("__r" in begin))}')


EDITS = [
    Edit("hooks", "(#include <bits/allocated_ptr.h>)", rf'#include "{TESTS}/replay/call_hooks.h"\n\1'),
    *(at_begin(*it) for it in FUNCTIONS),
    Edit("make", MAKES, rf'\1 {note("make", "this", "_M_pi")}', 5),
    Edit("lock", FAILED_LOCK, rf'\1 {note("lock", "this", "&__r", "_M_pi != nullptr")}'),
    Edit(
        "upgrade",
        FAILED_UPGRADE,
        rf'bool __failed = \1; {note("upgrade", "this", "&__r", "!__failed")} if (__failed)\2',
    ),
    Edit(
        "wcount and expired",
        rf"{USE_COUNT}( \}}\s*bool\s*){EXPIRED}",
        r"\1" + told("wcount", r"\2") + r"\3\4" + told("expired", r"\5"),
    ),
    Edit("count", USE_COUNT, r"\1" + told("count", r"\2")),
    Edit("an end", r"(?<!\w)(_M_dispose\(\);)", rf'{note("ends", "this")} \1 {note("ended", "this")}', 3),
]


def write(compiler, folder):
    """Writes the copy where the folder, as one of a compiler's headers, has it found first."""
    text = edited((folder_of(compiler) / HEADERS[0]).read_text(), EDITS, HEADERS[0])
    (folder / "bits").mkdir()
    (folder / "bits" / HEADERS[0]).write_text(text)
