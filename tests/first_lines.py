"""The first lines of a C++ programmer on a page: what the compiler says of each, and what to write."""

import re
import subprocess
from collections.abc import Iterator
from dataclasses import dataclass
from pathlib import Path

from crates import ROOT
from laid_out import lay_out

PAGE = "docs/migration.md"
HEADING = "| C++ | as it is written first | what the compiler says | what to write |"
# A row's cells; a `|` within one is escaped.
CELL = re.compile(r"(?:\\\||[^|])+")
CODE = re.compile(r"`([^`]+)`")
FAULT = re.compile(r"src/main\.rt:(\d+):\d+: error\[[\w-]+\]: (.*)")
HEAD = """#![tactic(auto)]

use std::io;
"""
OWN = """use pointers::{Desk, Domain, Fault, OptionalPointer, Shared, SharedCell, Weak};
use std::sync::Wait;
use std::thread::Threads;

const CELL: SharedCell = SharedCell(0);

#[derive(Clone, Copy, Drop)]
struct Node {
    limit: u64,
}

"""
FUNCTION = """fn line_{number}<'t, D: Domain<Value = Node>, R: Wait + Threads + Sync>(
    rt: &R,
    desk: &'t Desk<'t, D>,
    mut a: Shared<'t, D>,
    b: Shared<'t, D>,
    w: Weak<'t, D>,
    head: Option<Shared<'t, D>>,
) -> Result<(), Fault> {{
    {line}
    Ok(())
}}

"""
TAIL = """fn main(rt: HostRuntime) -> io::Result<()> {
    println!(&rt; "compiled")
}
"""


@dataclass(frozen=True)
class Row:
    """A line as it is written first, what is said of it, and lines that are right."""

    wrong: str
    said: str
    right: list[str]


def rows() -> list[Row]:
    """The rows of the page's table."""
    page = (ROOT / PAGE).read_text()
    lines = page.partition(HEADING)[2].splitlines()[2:]
    end = next((at for at, line in enumerate(lines) if not line.startswith("|")), len(lines))
    found = []
    for line in lines[:end]:
        _, wrong, said, right = (it.strip().replace("\\|", "|") for it in CELL.findall(line.strip("|")))
        found.append(Row(CODE.findall(wrong)[0], said, CODE.findall(right)))
    return found


def item(number: int, line: str) -> str:
    """A line of a function's body, or an item as it stands."""
    if line.startswith("struct "):
        return f"#[derive(Drop)]\n{line}\n\n"
    end = "" if line.endswith((";", "}")) else ";"
    return FUNCTION.format(number=number, line=f"{line}{end}")


def right_lines() -> str:
    """All lines that are right, each in a function of its own, as the text of a module."""
    lines = [line for row in rows() for line in row.right]
    return OWN + "".join(item(number, line) for number, line in enumerate(lines))


def told(room: Path, lines: list[str]) -> dict[str, str]:
    """What the compiler says of these lines, one after another in a program: by line, its first error."""
    source = HEAD + OWN
    begins = {}
    for number, line in enumerate(lines):
        begins[source.count("\n") + 1] = line
        source += item(number, line)
    crates = lay_out(room, "first_lines", ["pointers"], {"main.rt": source + TAIL})
    command = ["rt", "try", "--steps", "1"]
    ran = subprocess.run(command, cwd=crates / "first_lines", capture_output=True, text=True, check=False)
    found: dict[str, str] = {}
    for at, said in FAULT.findall(ran.stdout + ran.stderr):
        begin = max((it for it in begins if it <= int(at)), default=0)
        if begin:
            found.setdefault(begins[begin], said)
    return found


def faults(room: Path) -> Iterator[str]:
    """Lines of which the compiler says something else than the page does."""
    listed = rows()
    if len(listed) < 10:
        yield f"{PAGE}: {len(listed)} first lines"
    lines = [row.wrong for row in listed]
    said = told(room / "types", lines)
    # (borrows are looked at once all types are right)
    later = [line for line in lines if line not in said]
    said |= told(room / "borrows", later)
    for row in listed:
        if not said.get(row.wrong, "nothing").replace("`", "").startswith(row.said.replace("`", "")):
            yield f"{PAGE}: of {row.wrong} is said: {said.get(row.wrong)}"
