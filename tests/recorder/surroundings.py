"""What lies around a program: its folder, tools that are missing, libraries that it closes, processes that it
starts, units with hooks beside such without."""
import json
import os
import re
import shutil
import subprocess
import tempfile
from pathlib import Path

from recorder import library
from tests.recorder.options import record
from tests.recorder.building import HUNG, PROGRAMS, ROOT, at_most, built, differences


def in_another_folder():
    """A program that changes its folder, with relative paths, spaces and colons in names, and without a
    home."""
    text = "#include <memory>\n#include <unistd.h>\nstruct Node { std::shared_ptr<Node> next; };\n"
    text += 'int main() { auto node = std::make_shared<Node>(); node->next = node; return chdir("/"); }\n'
    with tempfile.TemporaryDirectory() as folder:
        place = Path(folder, "a folder: one")
        place.mkdir()
        built(place, "a program", text)
        names = {name: value for name, value in os.environ.items() if name not in ("HOME", "XDG_CACHE_HOME")}
        words = [ROOT / "record", "--keep", "kept", "--json", "report", "./a program"]
        ran = subprocess.run(words, cwd=place, env=names, capture_output=True, text=True)
        kept = sorted(re.sub(r"\d+", "N", path.name) for path in (place / "kept").iterdir())
        (report,) = json.loads((place / "report").read_text())["reports"]
    return differences(
        leaked=(ran.stderr.splitlines()[1:2], ["leaked 1 Node, made at a program.cc:4 in main"]),
        kept=(kept, ["record.N", "record.N.graph", "record.N.map"]),
        bytes=(report["leaked_bytes"], report["objects"][0]["bytes"]),
    )


PLUG_IN = """
#include <memory>
struct Node { std::shared_ptr<Node> next; };
extern "C" void leak() { auto node = std::make_shared<Node>(); node->next = node; }
"""
CLOSING = """
#include <dlfcn.h>
int main(int count, char** words) {
  for (int at = 1; at < count; at++) {
    void* part = dlopen(words[at], RTLD_NOW);
    reinterpret_cast<void (*)()>(dlsym(part, "leak"))();
    if (dlclose(part)) return 1;
  }
}
"""


def report_on_closed(folder: str, *names: str) -> subprocess.CompletedProcess:
    """Of a program that opens and closes plug-ins of these names in turn."""
    source = Path(folder, "part.cc")
    source.write_text(PLUG_IN)
    for name in names:
        command = ["g++", "-g", "-fPIC", "-shared", "-fno-gnu-unique", source.name, "-o", name]
        subprocess.run(command, check=True, cwd=folder)
    program = built(folder, "closing", CLOSING)
    return record("--json", f"{folder}/report", program, *(Path(folder, name) for name in names))


def a_closed_plug_in():
    """What it left is told, with its members, as if it were open."""
    with tempfile.TemporaryDirectory() as folder:
        ran = report_on_closed(folder, "plug-in.so")
    wanted = [
        "record: 1 object that shared pointers own is left, 1 leaked",
        f"leaked 1 Node, made at {folder}/part.cc:4 in leak",
        "knot 1 Node, tied by Node::next 1",
        "weaken Node::next",
    ]
    return differences(lines=(ran.stderr.splitlines()[:4], wanted), status=(ran.returncode, 3))


def plug_ins_that_lay_at_one_place():
    """Whose types can't be told apart any more, and that is said."""
    with tempfile.TemporaryDirectory() as folder:
        ran = report_on_closed(folder, "plug-in.so", "another.so")
        first = Path(folder, "plug-in.so")
        (report,) = json.loads(Path(folder, "report").read_text())["reports"]
    note = f"not looked at: 2 control blocks of {first} or another library, which was closed"
    wanted = ["record: 0 objects that shared pointers own are left, 0 leaked", f"record: {note}"]
    return differences(lines=(ran.stderr.splitlines()[:2], wanted), notes=(report["notes"], [note]))


def without_tools():
    """Without gdb and binutils the leak is told all the same, and what isn't known is said."""
    with tempfile.TemporaryDirectory() as folder:
        program = built(folder, "circle")
        tools = Path(folder, "tools")
        tools.mkdir()
        for name in "python3", "env", "g++", "sh", "bash":
            (tools / name).symlink_to(shutil.which(name))
        ran = subprocess.run(
            [ROOT / "record", program], env={**os.environ, "PATH": str(tools)}, capture_output=True, text=True
        )
    wanted = [
        "record: 2 objects that shared pointers own are left, 2 leaked",
        "leaked 2 Node",
        "knot 2 Node, tied by Node at byte 0 1, Node at byte 16 1",
        "weaken Node at byte 16",
        "weaken Node at byte 0",
        "record: each weaken line mends its knot by itself; take the first",
        "record: without gdb members and statics have no names: apt-get install gdb",
        "record: without binutils places have no names, and programs of some kinds are not refused: "
        "apt-get install binutils",
    ]
    return differences(lines=(ran.stderr.splitlines()[:8], wanted), status=(ran.returncode, 3))


def children_are_told():
    text = """
#include <memory>
#include <sys/wait.h>
#include <unistd.h>
struct Node { std::shared_ptr<Node> next; };
int main() {
  int status = 0;
  if (!fork()) { auto a = std::make_shared<Node>(); a->next = a; return 0; }
  wait(&status);
  return status;
}
"""
    with tempfile.TemporaryDirectory() as folder:
        program = built(folder, "forking", text)
        without, with_them = record(program), record("--children", program)
    lines = [line for line in with_them.stderr.splitlines() if line.startswith(("leaked", "knot"))]
    return differences(
        without=(without.returncode, 0), status=(with_them.returncode, 3), lines=(len(lines), 2)
    )


def units_of_both_kinds():
    """One unit with hooks and one without, in either order: the scan finds what no hook told."""
    hooks = record("--flags").stdout.split()
    units = "shared_library.cc", "shared_library.part.cc"
    wrong = []
    with tempfile.TemporaryDirectory() as folder:
        for hooked in units:
            for level in "-O0", "-O2":
                objects = [f"{folder}/{unit}.o" for unit in units]
                for unit, to in zip(units, objects):
                    extra = hooks if unit == hooked else []
                    subprocess.run(
                        ["g++", "-g", level, "-c", unit, "-o", to, *extra], cwd=PROGRAMS, check=True
                    )
                program = f"{folder}/program"
                subprocess.run(["g++", *objects, "-o", program, *hooks], check=True)
                said = record(program).stderr.splitlines()[2:5]
                right = ["knot 1 Plugin, tied by Plugin::friends 1", "weaken Plugin::friends"]
                wrong += (
                    []
                    if said[:2] == right and "counts of 1 of 1" in said[2]
                    else [f"{hooked} {level} {said}"]
                )
    return "\n".join(wrong)


def half_written_headers():
    """A header that is written in part, as where files may have 8 KB, isn't taken by the next `--flags`."""
    out = library.build().parent
    with tempfile.TemporaryDirectory() as folder:
        own = Path(folder, "recorder")
        shutil.copytree(ROOT / "recorder", own, ignore=shutil.ignore_patterns("out", "__pycache__"))
        shutil.copy(ROOT / "record", folder)
        (own / "out").mkdir()
        (own / "out" / out.name).symlink_to(out)
        words, names = [f"{folder}/record", "--flags"], {**os.environ, "PYTHONDONTWRITEBYTECODE": "1"}
        refused = subprocess.run(at_most(8, words), env=names, capture_output=True, text=True)
        found = subprocess.run(words, env=names, capture_output=True, text=True).stdout.split()[1]
        wanted = record("--flags").stdout.split()[1]
        texts = [
            {path.relative_to(place): path.read_text() for path in Path(place).rglob("*.h")}
            for place in (found, wanted)
        ]
    why = f"record: refused: {found}/bits/shared_ptr_base.h: File too large\n"
    return differences(refused=((refused.returncode, refused.stderr), (125, why)), texts=tuple(texts))


MANY = """
#include <csignal>
#include <cstdio>
#include <memory>
#include <vector>
int main() {
  auto& kept = *new std::vector<std::shared_ptr<int>>;
  for (int number = 0; number < 50000; number++) kept.push_back(std::make_shared<int>(number));
  std::raise(SIGUSR1);
  std::puts("went on");
  return 5;
}
"""


def full_disk():
    """Where files may have 64 KB: a record of many objects is refused, and the program goes on to its end."""
    with tempfile.TemporaryDirectory() as folder:
        program, kept = built(folder, "many", MANY), Path(folder, "kept")
        words = at_most(64, [ROOT / "record", "--now=USR1", "--keep", kept, program])
        names = {**os.environ, "PYTHONDONTWRITEBYTECODE": "1"}
        ran = subprocess.run(words, env=names, capture_output=True, text=True, timeout=HUNG)
        left = list(kept.iterdir())
    why = f"record: refused: its record could not be written to {kept}: File too large"
    return differences(
        said=((ran.stdout, ran.stderr.splitlines()[1:]), ("went on\n", [why])),
        status=(ran.returncode, 125),
        left=(left, []),
    )


CHECKS = [
    full_disk,
    half_written_headers,
    units_of_both_kinds,
    in_another_folder,
    a_closed_plug_in,
    plug_ins_that_lay_at_one_place,
    without_tools,
    children_are_told,
]
