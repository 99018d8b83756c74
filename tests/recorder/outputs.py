"""Where something can't be opened or written: the program runs as ever, and a line says what is missing."""
import os
import subprocess
import sys
import tempfile
from pathlib import Path

from tests.recorder.building import HUNG, ROOT, built, differences

LEAKED, REFUSED = 3, 125
TEXT = """
#include <cstdio>
#include <memory>
struct Node { std::shared_ptr<Node> next; };
int main() { std::puts("said"); auto node = std::make_shared<Node>(); node->next = node; return 5; }
"""
REPORT = "record: 1 object that shared pointers own is left, 1 leaked"


def record(program: Path, *options: str, shell: str = "", **names: str) -> subprocess.CompletedProcess:
    """With redirections or limits of a shell, `exec` of the command in place of `{}`."""
    words = [sys.executable, ROOT / "record", *options, program]
    command = ["bash", "-c", (shell or "{}").replace("{}", 'exec "$@"'), "bash", *words]
    how = {"capture_output": True, "text": True, "timeout": HUNG}
    return subprocess.run(command, env={**os.environ, **names}, **how)


def said(ran: subprocess.CompletedProcess) -> tuple:
    """The status, the output, and the first line of the report and whether another says `No space`."""
    lines = ran.stderr.splitlines()
    full = [line for line in lines if line.endswith("No space left on device")]
    return ran.returncode, ran.stdout, *lines[:1], *(full if lines[:1] != full else ())


def closed_streams():
    """The report never goes where the program writes."""
    with tempfile.TemporaryDirectory() as folder:
        program = built(folder, "leaking", TEXT)
        output, error = record(program, shell="{} >&-"), record(program, shell="{} 2>&-")
        every = record(program, shell="{} <&- >&- 2>&-")
    return differences(
        output=(said(output), (LEAKED, "", REPORT)),
        error=(said(error), (LEAKED, "said\n")),
        every=(said(every), (LEAKED, "")),
    )


def full_outputs():
    """The status stays what it is, and it is said once which file is full."""
    line = "record: {}: No space left on device"
    with tempfile.TemporaryDirectory() as folder:
        program = built(folder, "leaking", TEXT)
        found = {
            option: said(record(program, option, "/dev/full")) for option in ("--report", "--json", "--dot")
        }
        noted = said(record(program, "--github", shell="{} >/dev/full"))
        error = said(record(program, shell="{} 2>/dev/full"))
    full = line.format("/dev/full")
    return differences(
        report=(found["--report"], (LEAKED, "said\n", full)),
        json=(found["--json"], (LEAKED, "said\n", REPORT, full)),
        dot=(found["--dot"], (LEAKED, "said\n", REPORT, full)),
        noted=(noted, (LEAKED, "", REPORT, line.format("standard output"))),
        error=(error, (LEAKED, "said\n")),
    )


def few_files():
    """Where too few may be open, or none may be written, that is refused in a line."""
    found = {}
    with tempfile.TemporaryDirectory() as folder:
        program = built(folder, "leaking", TEXT)
        for limit in range(7, 17, 3):
            ran = record(program, shell=f"ulimit -n {limit}; {{}}")
            is_told = ran.returncode == LEAKED and ran.stderr.startswith(f"{REPORT}\n")
            is_refused = (ran.returncode, ran.stderr) == (REFUSED, "record: refused: Too many open files\n")
            found[f"files_{limit}"] = is_told or is_refused or ran.stderr, True
        ran = record(program, shell="ulimit -f 0; {} 2> >(cat >&2) | cat; exit ${PIPESTATUS[0]}")
    line = ran.stderr.startswith("record: refused: No usable temporary directory") and ran.stderr.count("\n")
    return differences(**found, unwritten=((ran.returncode, line), (REFUSED, 1)))


def long_temporary_folder():
    """The path of a socket has at most 107 bytes."""
    with tempfile.TemporaryDirectory() as folder:
        place = Path(folder, "x" * 100)
        place.mkdir()
        found = said(record(built(folder, "leaking", TEXT), TMPDIR=str(place)))
    return differences(found=(found, (LEAKED, "said\n", REPORT)))


def a_folder_that_is_gone():
    """Places are told by their whole paths."""
    with tempfile.TemporaryDirectory() as folder:
        source = Path(folder, "leaking.cc")
        source.write_text(TEXT)
        subprocess.run(["g++", source, "-g", "-o", f"{folder}/leaking"], check=True)
        ran = record(f"{folder}/leaking", shell=f"mkdir {folder}/gone; cd $_; rmdir {folder}/gone; {{}}")
    made = f"leaked 1 Node, made at {folder}/leaking.cc:5 in main"
    return differences(status=(ran.returncode, LEAKED), line=(ran.stderr.splitlines()[1:2], [made]))


CHECKS = [closed_streams, full_outputs, few_files, long_temporary_folder, a_folder_that_is_gone]
