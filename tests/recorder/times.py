"""What takes long is told with its time; and that the library is built, which takes long."""
import os
import re
import subprocess
import sys
import tempfile
import time
from pathlib import Path

from recorder import library
from tests.recorder.building import HUNG, ROOT, built, differences

TOOK = re.compile(r"record: reading its memory took (\d+) s, and telling what is left (\d+) s")
WITH_ANOTHER_BOUND = """
import sys
from recorder import command, reports
reports.LONG = int(sys.argv.pop(1))
sys.exit(command.main())
"""
MANY = """
#include <memory>
#include <vector>
int main() {
  auto& kept = *new std::vector<std::shared_ptr<int>>;
  for (int number = 0; number < 300000; number++) kept.push_back(std::make_shared<int>(number));
}
"""
# In the place of the compiler: what is built already, the search where its source is given.
COPYING = """#!/bin/sh
while [ "$1" != -o ]; do shift; done
case "$3" in */owner_search.cc) cp {search} "$2" ;; *) cp {library} "$2" ;; esac
"""


def report(bound: int, *words: str | Path) -> list[str]:
    """Its lines, where as many seconds are long."""
    command = [sys.executable, "-c", WITH_ANOTHER_BOUND, str(bound), *words]
    return subprocess.run(command, cwd=ROOT, capture_output=True, text=True, timeout=HUNG).stderr.splitlines()


def a_long_telling() -> str:
    """Both times, which the reading and all of the run bound."""
    with tempfile.TemporaryDirectory() as folder:
        program, began = built(folder, "many", MANY), time.monotonic()
        lines = report(1, "--keep", f"{folder}/kept", program)
        took = time.monotonic() - began
        (path,) = (path for path in Path(folder, "kept").iterdir() if re.fullmatch(r"record\.\d+", path.name))
        (read,) = re.findall(r"^milliseconds (\d+)$", path.read_text(), re.M)
    told = TOOK.fullmatch(lines[-1])
    if not told:
        return "\n".join(lines)
    reading, telling = map(int, told.groups())
    return differences(
        reading=(reading, round(int(read) / 1000)),
        is_read=(0 < int(read) / 1000 < took, True),
        telling=(1 <= telling <= took + 1, True),
    )


def a_short_one() -> str:
    with tempfile.TemporaryDirectory() as folder:
        lines = report(HUNG, built(folder, "circle"))
    return differences(lines=([line for line in lines if "took" in line], []), count=(len(lines), 8))


def the_building_of_the_library() -> str:
    """It is told at the first run, on standard error, wherever the report goes; and at no other."""
    with tempfile.TemporaryDirectory() as folder:
        program, copy = built(folder, "circle"), Path(folder, "copy")
        copy.mkdir()
        compiler = Path(folder, "g++")
        built_already = library.build()
        search = library.search_beside(built_already)
        compiler.write_text(COPYING.format(library=built_already, search=search))
        compiler.chmod(0o755)
        subprocess.run(["cp", "-r", ROOT / "record", ROOT / "recorder", copy], check=True)
        subprocess.run(["rm", "-r", copy / "recorder/out"], check=True)
        names = {**os.environ, "PATH": f"{folder}:{os.environ['PATH']}"}
        words = [copy / "record", "--report", f"{folder}/report", program]
        said = [subprocess.run(words, env=names, capture_output=True, text=True).stderr for _ in range(2)]
        first = Path(folder, "report").read_text().splitlines()[0]
    line = "record: building its library, this once: half a minute of processor time\n"
    left = "record: 2 objects that shared pointers own are left, 2 leaked"
    return differences(said=(said, [line, ""]), report=(first, left))


CHECKS = [a_long_telling, a_short_one, the_building_of_the_library]
