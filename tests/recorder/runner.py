"""Runs ./record on C++ programs with planted leaks and without, and wants the reports written by hand beside
them.

usage: tests/run_recorder [--all] [NAME..]

Each program of tests/recorder is built by g++ and clang++, at -O0 and -O2, as C++17 and C++20, and its
handles are found by a scan of memory or told by hooks: with --all in all sixteen ways, else in two of them
each, so that all ways come. Then come programs from a seed, whose knots and members their generator knows,
the options, programs that have to be refused, and those that a recorder changes easily."""
import importlib
import itertools
import os
import random
import re
import shutil
import signal
import subprocess
import sys
import tempfile
from concurrent.futures import ThreadPoolExecutor
from dataclasses import dataclass
from pathlib import Path

from tests.recorder import random_programs, times
from tests.recorder.building import HUNG, PROGRAMS, ROOT

RECORD = str(ROOT / "record")
MET = re.compile(r"record: the pointers found explain the counts of (\d+) of (\d+) control blocks; .*")
ADVICE = "record: each weaken line mends its knot by itself; take the first"
RANDOM_PROGRAMS = 6
MODULES = "hanging", "limits", "lint", "options", "outputs", "proved", "refusals", "searching", "signals"
MODULES += "suppressing", "surroundings", "times", "unchanged", "with_boost", "with_containers"


@dataclass(frozen=True)
class Way:
    compiler: str
    level: str
    standard: str
    how: str

    def __str__(self):
        return f"{self.compiler} {self.level} {self.standard} {self.how}"

    def flags(self):
        """The flags of a compilation, its hooks with them."""
        found = [self.level, f"-std={self.standard}", "-pthread", "-s" if self.how == "stripped" else "-g"]
        return found + (hooks(self.compiler) if self.how == "hooks" else [])


HOOKS = {}


def hooks(compiler):
    if compiler not in HOOKS:
        ran = run([RECORD, "--flags"], env={**os.environ, "CXX": compiler})
        HOOKS[compiler] = ran.stdout.split()
    return HOOKS[compiler]


def run(command, **how):
    return subprocess.run(
        [str(word) for word in command], capture_output=True, text=True, errors="replace", **how
    )


def compilers():
    """Those that are there; g++ has to be, and clang++ with what reads its inlined calls."""
    return ["g++"] + ["clang++"] * all(map(shutil.which, ["clang++", "llvm-symbolizer"]))


def ways(hows=("scan", "hooks")):
    return [
        Way(*choice) for choice in itertools.product(compilers(), ["-O0", "-O2"], ["c++17", "c++20"], hows)
    ]


def ways_of(name, number, every):
    """Two of all ways for each program, in turn, and two without debug information and symbols where that has
    a report of its own; those of C++20, g++ or -O2 alone where it wants that."""
    wanted = re.search(r"Wants (.*)\.\n", (PROGRAMS / f"{name}.cc").read_text())
    for hows in ("scan", "hooks"), ("stripped",):
        if hows == ("stripped",) and not (PROGRAMS / f"{name}.stripped.expected").exists():
            continue
        found = [way for way in ways(hows) if not wanted or fits(way, wanted[1])]
        count = len(found)
        yield from found if every else [found[number % count], found[(number * 5 + count // 2 + 1) % count]]


def fits(way, wanted):
    is_compiler = way.compiler == "g++" or "g++" not in wanted
    is_level = way.level == "-O2" or "-O2" not in wanted
    return is_compiler and is_level and (way.standard == "c++20" or "C++20" not in wanted)


def build(sources, to, way):
    """Compiles in the folder of the sources, so that places are told without it."""
    ran = run([way.compiler, *sources, "-o", to, *way.flags()], cwd=sources[0].parent)
    if ran.returncode:
        raise RuntimeError(ran.stderr)


def build_program(name, folder, way):
    """A program, with its library where it has one."""
    to, part = folder / name, PROGRAMS / f"{name}.part.cc"
    sources = [PROGRAMS / f"{name}.cc", *PROGRAMS.glob(f"{name}.unit.cc")]
    if part.exists():
        library = folder / f"lib{name}.so"
        shared = run([way.compiler, part.name, "-fPIC", "-shared", "-o", library, *way.flags()], cwd=PROGRAMS)
        if shared.returncode:
            raise RuntimeError(shared.stderr)
        sources += [library, f"-Wl,-rpath,{folder}"]
    build(sources, to, way)
    return to


def report_of(program):
    """The lines of a report, the last one shortened, and the exit status."""
    ran = run([RECORD, program], cwd=PROGRAMS, timeout=HUNG)
    lines = [
        line for line in ran.stderr.splitlines() if not times.TOOK.fullmatch(line)
    ]  # (on a busy machine)
    found = [MET.sub(r"met \1 of \2", line) for line in lines]
    return [*without_advice(found), f"status {ran.returncode}"]


def without_advice(lines):
    """The lines without the advice, which stands there just where a knot has several ways."""
    ways = [len(re.findall("\nweaken ", knot)) for knot in re.split(r"\nknot ", "\n".join(lines))[1:]]
    wanted = [ADVICE] if max(ways, default=0) > 1 else []
    advice = [line for line in lines if line == ADVICE]
    return [line for line in lines if line != ADVICE] if advice == wanted else [f"{wanted} is wanted", *lines]


def expected(name, way):
    path = PROGRAMS / f"{name}.{way.how}.expected"
    return (path if path.exists() else PROGRAMS / f"{name}.expected").read_text().splitlines()


def in_motion(lines):
    """Without what its threads change while a program is read, and what an optimizer holds in registers."""
    return [line for line in lines if not line.startswith(("met ", "record: 1 kept", "record: 2 kept"))]


def check_program(name, way):
    """What is wrong with the report on a program; '' where nothing is."""
    wanted = expected(name, way)
    with tempfile.TemporaryDirectory() as folder:
        found = report_of(build_program(name, Path(folder), way))
    if not any(line.startswith("met ") for line in wanted):
        found = in_motion(found)
    return "" if found == wanted else "\n".join(["wanted", *wanted, "found", *found])


def check_random(seed):
    way = random.Random(seed).choice(ways())
    wanted, text = random_programs.program(seed)
    with tempfile.TemporaryDirectory() as folder:
        source = Path(folder, "random.cc")
        source.write_text(text)
        build([source], Path(folder, "random"), way)
        return (
            random_programs.difference(wanted, RECORD, Path(folder, "random"))
            and f"seed {seed}, {way}\n{text}"
        )


def tests(names, every):
    """(title, a function that says what is wrong)."""
    all_names = sorted(source.name[:-3] for source in PROGRAMS.glob("*.cc") if source.name.count(".") == 1)
    for number, name in enumerate(all_names):
        if not names or name in names:
            for way in ways_of(name, number, every):
                yield f"{name}, {way}", lambda name=name, way=way: check_program(name, way)
    if not names:
        for seed in range(1, (10 * RANDOM_PROGRAMS if every else RANDOM_PROGRAMS) + 1):
            yield f"random program {seed}", lambda seed=seed: check_random(seed)
    for module in MODULES:
        for check in importlib.import_module(f"tests.recorder.{module}").CHECKS:
            if not names or check.__name__ in names:
                yield check.__name__, check


def missing_tools():
    needed = {
        "g++": "g++",
        "gdb": "gdb",
        "readelf": "binutils",
        "addr2line": "binutils",
        "c++filt": "binutils",
    }
    return sorted({package for tool, package in needed.items() if not shutil.which(tool)})


def passes(test) -> bool:
    title, check = test
    try:
        wrong = check()
    except Exception as fault:  # (each is a failed test)
        wrong = f"{type(fault).__name__}: {fault}"
    if wrong:
        print(f"FAILED {title}\n{wrong}", flush=True)
    return not wrong


def main(words):
    if missing_tools():
        print(f'run_recorder: not run, for want of {" ".join(missing_tools())}: apt-get install them')
        print("0 passed, 1 failed")
        return 1
    # A shell starts what runs in the background with SIGINT ignored, and programs would inherit that.
    signal.signal(signal.SIGINT, signal.default_int_handler)
    for compiler in compilers():
        hooks(compiler)  # (builds the library once)
    names = [word for word in words if word != "--all"]
    with ThreadPoolExecutor(len(os.sched_getaffinity(0))) as pool:
        results = list(pool.map(passes, tests(names, "--all" in words)))
    print(f"{sum(results)} passed, {len(results) - sum(results)} failed")
    return 0 if all(results) else 1


if __name__ == "__main__":
    sys.exit(main(sys.argv[1:]))
