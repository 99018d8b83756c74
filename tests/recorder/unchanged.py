"""Programs that stay as they are: each natively and under ./record, with the same output and the same status
where ./record has none of its own; and what it says of those that it can't tell of."""
import os
import signal
import subprocess
import tempfile
from pathlib import Path

from tests.recorder.building import HUNG, ROOT, UNCHANGED, built_unchanged

LEAKED, REFUSED = 3, 125
RUNS = 10  # of programs whose threads race
OTHER_MALLOC = "its library libother_malloc.so has a malloc of its own"
CONFINED = "it confines itself by seccomp, and its memory can't be read after that"
# By which call, or what it does then.
CONFINING = (
    "strict",
    "filter",
    "call",
    "exit",
    "quick_exit",
    "_exit",
    "err",
    "term",
    "close",
    "thread",
    "exec",
    "fork",
)
DAEMON = "it goes on as a daemon: a process of its own, whose end nobody waits for"


def other_malloc(folder):
    """The library with a malloc of its own."""
    to = Path(folder, "libother_malloc.so")
    command = [
        "g++",
        "-g",
        "-O2",
        "-std=c++17",
        "-shared",
        "-fPIC",
        UNCHANGED / "other_malloc.part.cc",
        "-o",
        to,
    ]
    subprocess.run(command, check=True)
    return to


def ran(*words, **how):
    """The status, the output and the faults of a run."""
    done = subprocess.run([str(word) for word in words], capture_output=True, text=True, timeout=HUNG, **how)
    return done.returncode, done.stdout, done.stderr


def difference(*words, status=None, says="", options=(), **how):
    """What `./record` changes of a program. Its status may be another one, and its report has to say
    something."""
    native, recorded = ran(*words, **how), ran(ROOT / "record", *options, *words, **how)
    wanted = native[0] if status is None else status
    wanted = 128 - wanted if wanted < 0 else wanted
    right = recorded[:2] == (wanted, native[1]) and says in recorded[2]
    return "" if right else f"{[str(word) for word in words]} {native} {recorded} {says}\n"


def refused(why):
    return {"status": REFUSED, "says": f"record: refused: {why}\n"}


def threads_in_stdio():
    with tempfile.TemporaryDirectory() as folder:
        program = built_unchanged(folder, "stdio_threads")
        return "".join(difference(program, says="0 leaked") for _ in range(RUNS))


def small_stacks():
    with tempfile.TemporaryDirectory() as folder:
        program = built_unchanged(folder, "small_stacks")
        return "".join(difference(program, how, says="0 leaked") for how in ["_exit", "exit"] * 3)


def limits():
    leaks = {"status": LEAKED, "says": "leaked 1 Node, made at"}
    with tempfile.TemporaryDirectory() as folder:
        program = built_unchanged(folder, "limits")
        wrong = difference(program, "FSIZE", 0) + difference(program, "FSIZE", 0, "leak", **leaks)
        wrong += difference(program, "NOFILE", 3) + difference(program, "NOFILE", 3, "leak", **leaks)
        wrong += difference(program, "NOFILE", 0) + difference(program, "NOFILE", 0, "leak", **leaks)
        return wrong + difference(program, "AS", 200 << 20, "leak", **leaks)


def limits_that_leave_nothing():
    """With no memory left it can't be read, and the program ends as ever."""
    none = {"status": REFUSED, "says": "record: refused: no memory "}
    with tempfile.TemporaryDirectory() as folder:
        program = built_unchanged(folder, "limits")
        wrong = "".join(difference(program, "AS", size << 20, "fill", **none) for size in (8, 50, 200))
        return wrong + difference(program, "DATA", 100 << 20, "fill", **none)


def confined():
    with tempfile.TemporaryDirectory() as folder:
        program = built_unchanged(folder, "confined")
        return "".join(keeps_still(program, how) for how in CONFINING)


def keeps_still(program: Path, how: str) -> str:
    """The recorder calls nothing more, as that would be the end: a report would say by which signal."""
    ended = how == "term"
    signal_told = "record: the program was ended by SIGTERM\n" if ended else ""
    wanted = {*ran(program, how)[2].splitlines(), f"record: refused: {CONFINED}", *signal_told.splitlines()}
    found = ran(ROOT / "record", program, how)[2].splitlines()
    is_silent = set(found) == wanted and len(found) == len(wanted)
    return difference(program, how, **refused(CONFINED)) + ("" if is_silent else f"{how}: {found}\n")


def what_malloc_tells():
    """How much is in use, and what fresh memory is filled with where that was asked for."""
    leaks = {"status": LEAKED, "says": "leaked 1 Node, made at"}
    with tempfile.TemporaryDirectory() as folder:
        program = built_unchanged(folder, "asking_malloc")
        wrong = difference(program, **leaks)
        for asked in {"MALLOC_PERTURB_": "165"}, {"GLIBC_TUNABLES": "glibc.malloc.perturb=0x11"}:
            wrong += difference(program, env={**os.environ, **asked}, **leaks)
        return wrong


def a_daemon():
    with tempfile.TemporaryDirectory() as folder:
        return difference(built_unchanged(folder, "daemon"), **refused(DAEMON))


def probing():
    with tempfile.TemporaryDirectory() as folder:
        return difference(built_unchanged(folder, "probing"), status=LEAKED, says="leaked 1 Node, made at")


def moved_away():
    """(only who has all rights may do this)"""
    if os.geteuid():
        return ""
    with tempfile.TemporaryDirectory() as folder:
        program = built_unchanged(folder, "moved_away")
        return difference(program, folder, status=LEAKED, says="leaked 1 Node, made at")


def other_malloc_is_refused():
    """Before the program runs, where the library is linked or preloaded."""
    with tempfile.TemporaryDirectory() as folder:
        library = other_malloc(folder)
        linked = built_unchanged(
            folder, "other_malloc", "-Wl,--no-as-needed", library, f"-Wl,-rpath,{folder}"
        )
        wrong = "".join(f"{found}\n" for found in [ran(linked)] if found[0] != 5)
        preloaded = {**os.environ, "LD_PRELOAD": str(library)}
        plain = built_unchanged(folder, "writing")
        for how in (linked, {}), (plain, {"env": preloaded}):
            found = ran(ROOT / "record", how[0], **how[1])
            wrong += "" if found == (REFUSED, "", f"record: refused: {OTHER_MALLOC}\n") else f"{found}\n"
    return wrong


def other_malloc_runs():
    """Where a program becomes or starts another that has such a library, that runs as ever."""
    with tempfile.TemporaryDirectory() as folder:
        flags = "-Wl,--no-as-needed", other_malloc(folder), f"-Wl,-rpath,{folder}"
        program, starting = built_unchanged(folder, "other_malloc", *flags), built_unchanged(
            folder, "starting"
        )
        wrong = difference(starting, program)
        wrong += difference("sh", "-c", f"exec {program}", **refused(OTHER_MALLOC))
        own = built_unchanged(folder, "other_malloc", UNCHANGED / "other_malloc.part.cc")
        return wrong + difference("sh", "-c", f"exec {own}", **refused("it has a malloc of its own"))


def a_reader_that_leaves():
    """A program that writes to nobody ends by SIGPIPE, as it does natively."""
    with tempfile.TemporaryDirectory() as folder:
        program = built_unchanged(folder, "writing")
        found = []
        for words in [program], [ROOT / "record", program]:
            with subprocess.Popen(
                words, stdout=subprocess.PIPE, stderr=subprocess.PIPE, text=True
            ) as process:
                process.stdout.readline()
                process.stdout.close()
                process.stderr.read()
            found.append(process.returncode)
    return "" if found == [-signal.SIGPIPE, 128 + signal.SIGPIPE] else f"{found}"


CHECKS = [
    threads_in_stdio,
    small_stacks,
    limits,
    limits_that_leave_nothing,
    confined,
    what_malloc_tells,
    a_daemon,
    probing,
    moved_away,
    other_malloc_is_refused,
    other_malloc_runs,
    a_reader_that_leaves,
]
