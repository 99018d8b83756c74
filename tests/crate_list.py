"""The crates that a repository's crates.txt lists."""

from collections.abc import Iterable
from pathlib import Path

# By crate, the libraries on its line.
Listed = dict[str, list[str]]


def listed(root: Path) -> Listed:
    """The crates of a repository, in the order of its list."""
    lines = (root / "crates.txt").read_text().splitlines()
    parted = (line.partition(":") for line in lines if line.strip() and not line.startswith("#"))
    return {head.split()[0]: below.split() for head, _, below in parted}


def closure(below: Listed, names: Iterable[str]) -> list[str]:
    """These crates and all that they stand on, each after those that it stands on."""
    found: dict[str, None] = {}

    def visit(name: str) -> None:
        for it in below.get(name, ()):
            visit(it)
        found[name] = None

    for name in names:
        visit(name)
    return list(found)
