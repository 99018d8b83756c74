"""Programs that are no crates of this repository, laid out as crates of another one."""

import shutil
from pathlib import Path

from crate_list import closure
from crates import ROOT, crates

# What a build before any proof doesn't read.
NOT_READ = shutil.ignore_patterns("out", "proofs", "must-fail", "wrong-bodies")


def lay_out(folder: Path, program: str, libraries: list[str], sources: dict[str, str]) -> Path:
    """Makes a repository of this program, which stands on these libraries of ours, and of all that they stand
    on. Returns its folder of crates."""
    below, own = closure(crates(), libraries), folder / "crates"
    kept = [it for it in (ROOT / "crates.txt").read_text().splitlines() if it.partition(":")[0] in below]
    for name, text in sources.items():
        file = own / program / "src" / name
        file.parent.mkdir(parents=True, exist_ok=True)
        file.write_text(text)
    (folder / "crates.txt").write_text("\n".join([*kept, f"{program}: {' '.join(below)}", ""]))
    shutil.copy(ROOT / "HANDLES", folder)
    for crate in below:
        if (ROOT / "crates" / crate).exists():
            shutil.copytree(ROOT / "crates" / crate, own / crate, ignore=NOT_READ)
    return own
