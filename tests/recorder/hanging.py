"""Reading memory comes to an end: in programs whose heaps lie beside the recorder's own mappings, and where
it takes too long. So does the asking of gdb."""
import os
import subprocess
import tempfile
from pathlib import Path

from tests.recorder.building import ROOT, built_unchanged
from tests.recorder.unchanged import LEAKED, difference, refused

RUNS = 20
UNITS = ROOT / "tests/recorder/units"
SECONDS = 60  # for what takes none


def threads_with_heaps_of_their_own() -> str:
    with tempfile.TemporaryDirectory() as folder:
        program = built_unchanged(folder, "small_objects")
        told = {"status": LEAKED, "says": "left, 4 leaked\nleaked 4 Node, made at"}
        return "".join(difference(program, **told) for _ in range(RUNS))


def ranges_with_odd_ends() -> str:
    """What tells of ranges of memory, by itself."""
    return faults_of_unit("ranges")


def calls_before_a_program_is_confined() -> str:
    """They are at their end, and none follows."""
    return faults_of_unit("system_calls")


def faults_of_unit(name: str) -> str:
    """What a test of a file of the library writes."""
    with tempfile.TemporaryDirectory() as folder:
        program = Path(folder, name)
        sources = UNITS / f"{name}.cc", ROOT / f"recorder/library/{name}.cc"
        subprocess.run(["g++", "-std=c++17", "-pthread", *sources, "-o", program], check=True)
        found = subprocess.run([program], capture_output=True, text=True, timeout=SECONDS)
    return found.stdout + found.stderr


def a_limit_of_the_reading() -> str:
    """It is refused after so long, and the program ends as it would."""
    why = "reading its memory took more than 1 s; see --limit"
    with tempfile.TemporaryDirectory() as folder:
        program = built_unchanged(folder, "many_left")
        return difference(program, options=("--limit", "1"), **refused(why))


def a_gdb_that_hangs() -> str:
    """It is refused by its name after so long, and the program's output and status are its own."""
    with tempfile.TemporaryDirectory() as folder:
        program, gdb = built_unchanged(folder, "asking_malloc"), Path(folder, "tools", "gdb")
        gdb.parent.mkdir()
        gdb.write_text(f"#!/bin/sh\nexec sleep {SECONDS}\n")
        gdb.chmod(0o755)
        names = {**os.environ, "PATH": f"{gdb.parent}:{os.environ['PATH']}"}
        why = "gdb is not done, and telling took more than 2 s; see --limit"
        return difference(program, options=("--limit", "2"), env=names, **refused(why))


CHECKS = [
    threads_with_heaps_of_their_own,
    ranges_with_odd_ends,
    calls_before_a_program_is_confined,
    a_limit_of_the_reading,
    a_gdb_that_hangs,
]
