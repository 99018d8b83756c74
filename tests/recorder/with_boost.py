"""Programs with Boost, where its headers are there."""
import subprocess
import tempfile
from pathlib import Path

from tests.recorder.building import HUNG, PROGRAMS, ROOT, differences

LEAKED = 3
SHARED = """
record: 3 objects that shared pointers own are left, 3 leaked
leaked 1 Parent, made at shared.cc:30 in main
leaked 1 Child, made at shared.cc:31 in main
leaked 1 Ring, made at shared.cc:34 in main
knot 1 Parent, 1 Child, tied by Parent::child 1, Child::parent 1
weaken Child::parent
weaken Parent::child
knot 1 Ring, tied by Loop::itself 1
weaken Loop::itself
record: each weaken line mends its knot by itself; take the first
record: the pointers found explain the counts of 3 of 3 control blocks; {TRUST}
"""
CONTAINERS = """
record: 3 objects that shared pointers own are left, 3 leaked
lost 1 Session, made at containers.cc:17 in main, by an owner in memory that only {PEERS} points to
lost 1 Session, made at containers.cc:18 in main, by an owner in memory that only {PEERS} points to
lost 1 Button, made at containers.cc:21 in main, by an owner in memory that only {PRESSED} points to
knot if {PEERS} owns it: 2 Session, tied by {PEERS} 2
weaken {PEERS}
knot if {PRESSED} owns it: 1 Button, tied by {PRESSED} 1
weaken {PRESSED}
"""
NAMES = {
    "TRUST": "neither the reading of memory nor the answer is proved",
    "PEERS": "Session::peers.m_flat_tree.m_data.m_seq.m_holder.m_start",
    "PRESSED": "Button::pressed.functor.members.obj_ptr",
}
IS_THERE = Path("/usr/include/boost/asio.hpp").exists()


def reported(folder: str, name: str, *words: str) -> subprocess.CompletedProcess:
    """What ./record says of a program with Boost."""
    to = Path(folder, name)
    command = ["g++", "-g", "-std=c++17", "-pthread", f"{name}.cc", "-o", to]
    subprocess.run(command, check=True, cwd=PROGRAMS / "boost")
    how = {"capture_output": True, "text": True, "timeout": HUNG}
    return subprocess.run([ROOT / "record", to, *words], cwd=PROGRAMS / "boost", **how)


def operations_that_wait() -> str:
    """The memory of an operation is lost, though an epoll in which nobody waits leads there."""
    if not IS_THERE:
        return ""
    with tempfile.TemporaryDirectory() as folder:
        reading, waiting = reported(folder, "asio"), reported(folder, "asio", "timer")
    lines = [
        "record: 2 objects that shared pointers own are left, 2 leaked",
        "leaked 1 boost::asio::io_context, made at asio.cc:29 in main",
        "lost 1 Connection, made at asio.cc:31 in main, by an owner in memory that only Connection::",
    ]
    found = {}
    for name, ran in ("reading", reading), ("waiting", waiting):
        told = [line[: len(wanted)] for line, wanted in zip(ran.stderr.splitlines(), lines)]
        found[name] = (told, ran.returncode), (lines, LEAKED)
    return differences(**found)


def shared_pointers_of_boost() -> str:
    """They are read as std's."""
    return difference_of("shared", SHARED)


def containers_of_boost() -> str:
    """The knots through them are told under a condition."""
    return difference_of("containers", CONTAINERS)


def difference_of(name: str, wanted: str) -> str:
    if not IS_THERE:
        return ""
    with tempfile.TemporaryDirectory() as folder:
        ran = reported(folder, name)
    lines = wanted.format(**NAMES).strip().splitlines()
    return differences(lines=(ran.stderr.splitlines()[: len(lines)], lines), status=(ran.returncode, LEAKED))


CHECKS = [operations_that_wait, shared_pointers_of_boost, containers_of_boost]
