"""The crates of this repository, and which of them have tests and wrong bodies."""

from pathlib import Path

from crate_list import listed
from edit_files import MUST_FAIL, edit_paths

ROOT = Path(__file__).resolve().parent.parent


def crates() -> dict[str, list[str]]:
    """The crates that crates.txt lists, in its order, each with the libraries that it stands on."""
    return listed(ROOT)


def page_programs() -> list[str]:
    """The programs on crates' pages, each of which stands beside its C++."""
    names = (it.stem for it in (ROOT / "examples").glob("*.cpp"))
    return sorted(name for name in names if (ROOT / "crates" / name).is_dir())


def has_tests(crate: str) -> bool:
    return any("#[test]" in file.read_text() for file in (ROOT / "crates" / crate / "src").rglob("*.rt"))


def edits(crate: str, folder: str = MUST_FAIL) -> int:
    """How many wrong bodies a crate has in a folder: those that `rt ci` tries, or the others."""
    return len(edit_paths(crate, folder))
