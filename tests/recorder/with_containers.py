"""Programs with containers and coroutines that aren't std's, where their headers are there: the knots through
them are told under a condition."""
import shutil
import subprocess
import tempfile
from pathlib import Path

from tests.recorder.building import HUNG, PROGRAMS, ROOT, differences

LEAKED = 3
CONTAINERS = PROGRAMS / "containers"
ABSL = """
record: 4 objects that shared pointers own are left, 4 leaked
leaked 1 Widget, made at absl.cc:19 in main
lost 2 Session, made at absl.cc:16 in main, by an owner in memory that only Session::peers.ctrl_ points to
lost 1 Widget, made at absl.cc:21 in main, by an owner in memory that only {ALLOCATED} points to
knot 1 Widget, tied by Widget at byte 8 1
weaken Widget at byte 8
knot if Session::peers.ctrl_ owns it: 2 Session, tied by Session::peers.ctrl_ 2
weaken Session::peers.ctrl_
knot if {ALLOCATED} owns it: 1 Widget, tied by {ALLOCATED} 3
weaken {ALLOCATED}
"""
LLVM = """
record: 4 objects that shared pointers own are left, 4 leaked
leaked 1 Block, made at llvm.cc:19 in main
lost 1 Block, made at llvm.cc:21 in main, by an owner in memory that only Block::next.BeginX points to
lost 1 Value, made at llvm.cc:23 in main, by an owner in memory that only Value::users.Buckets points to
lost 1 Scope, made at llvm.cc:25 in main, by an owner in memory that only Scope::names.TheTable points to
knot 1 Block, tied by Block::next.InlineElts 1
weaken Block::next.InlineElts
knot if Block::next.BeginX owns it: 1 Block, tied by Block::next.BeginX 5
weaken Block::next.BeginX
knot if Value::users.Buckets owns it: 1 Value, tied by Value::users.Buckets 1
weaken Value::users.Buckets
knot if Scope::names.TheTable owns it: 1 Scope, tied by Scope::names.TheTable 1
weaken Scope::names.TheTable
"""
QT = """
record: 4 objects that shared pointers own are left, 4 leaked
lost 1 Window, made at qt.cc:22 in main, by an owner in memory that only Window::children.d points to
lost 1 Model, made at qt.cc:24 in main, by an owner in memory that only Model::parts.e points to
lost 1 Item, made at qt.cc:26 in main, by an owner in memory that only Item::items.d points to
lost 1 Entry, made at qt.cc:28 in main, by an owner in memory that only Entry::entries.p.d points to
knot if Window::children.d owns it: 1 Window, tied by Window::children.d 1
weaken Window::children.d
knot if Model::parts.e owns it: 1 Model, tied by Model::parts.e 1
weaken Model::parts.e
knot if Item::items.d owns it: 1 Item, tied by Item::items.d 1
weaken Item::items.d
knot if Entry::entries.p.d owns it: 1 Entry, tied by Entry::entries.p.d 1
weaken Entry::entries.p.d
"""
COROUTINE = """
record: 1 object that shared pointers own is left, 1 leaked
lost 1 Server, made at coroutine.cc:26 in main, by an owner in memory that only {FRONT} points to
knot if {FRONT} owns it: 1 Server, tied by {FRONT} 1
weaken {FRONT}
"""
KEPT = """
record: the program ended by _exit: no destructor of a static has run
record: 1 object that shared pointers own is left, 0 leaked
"""
NAMES = {
    "ALLOCATED": "Widget::parts.storage_.data_.allocated.allocated_data",
    "FRONT": "Server::timer.impl_.implementation_.timer_data.op_queue_.front_",
}
HASHING = "hash", "city", "low_level_hash", "raw_hash_set", "raw_logging_internal", "throw_delegate"


def told(name: str, flags: list[str], *words: str) -> subprocess.CompletedProcess | None:
    """What ./record says of a program; None where its headers aren't there."""
    with tempfile.TemporaryDirectory() as folder:
        command = ["g++", "-g", "-std=c++20", "-fPIC", "-pthread", f"{name}.cc", "-o", f"{folder}/{name}"]
        how = {"capture_output": True, "text": True, "cwd": CONTAINERS}
        headers = subprocess.run([*command[:-2], "-fsyntax-only", *flags], **how)
        if "No such file or directory" in headers.stderr:
            return None
        subprocess.run([*command, *flags], check=True, cwd=CONTAINERS)
        return subprocess.run([ROOT / "record", f"{folder}/{name}", *words], timeout=HUNG, **how)


def difference(wanted: str, status: int, name: str, flags: list[str], *words: str) -> str:
    """What isn't as it should be of the first lines and the status; '' where the headers aren't there."""
    ran = told(name, flags, *words)
    lines = wanted.format(**NAMES).strip().splitlines()
    if not ran:
        return ""
    return differences(lines=(ran.stderr.splitlines()[: len(lines)], lines), status=(ran.returncode, status))


def containers_of_absl() -> str:
    """A map has two pointers into its array: what leads there is one object's all the same. What lies in a
    vector itself has no name."""
    return difference(ABSL, LEAKED, "absl", [f"-labsl_{library}" for library in HASHING])


def containers_of_llvm() -> str:
    if not shutil.which("llvm-config"):
        return ""
    (folder,) = subprocess.run(["llvm-config", "--includedir"], capture_output=True, text=True).stdout.split()
    libraries = subprocess.run(["llvm-config", "--libdir"], capture_output=True, text=True).stdout.strip()
    (library, *_) = sorted(Path(libraries).glob("libLLVM*.so*"))
    return difference(LLVM, LEAKED, "llvm", [f"-I{folder}", str(library)])


def containers_of_qt() -> str:
    headers = "/usr/include/x86_64-linux-gnu/qt5"
    return difference(QT, LEAKED, "qt", [f"-I{headers}", f"-I{headers}/QtCore", "-lQt5Core"])


def coroutines_of_asio() -> str:
    """One owns who has its io_context, which leaks; a static's io_context keeps what another owns."""
    return difference(COROUTINE, LEAKED, "coroutine", []) or difference(KEPT, 0, "coroutine", [], "kept")


CHECKS = [containers_of_absl, containers_of_llvm, containers_of_qt, coroutines_of_asio]
