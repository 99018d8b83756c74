"""Wrong bodies as files: crates/CRATE/wrong-bodies/NAME.edit, and crates/CRATE/must-fail/NAME.edit, which `rt
ci` tries.

Each has a line with the wrong body in words, then `file: src/FILE`, and pairs of lines `old: TEXT` and `new:
TEXT`. In must-fail the line in words begins with `// `, as `rt` wants of a line that it shall not read.
"""

import re
from dataclasses import dataclass
from pathlib import Path

ROOT = Path(__file__).resolve().parent.parent
WRONG_BODIES, MUST_FAIL = "wrong-bodies", "must-fail"
COMMENT = re.compile(r"(?://|--|#) ")


@dataclass(frozen=True)
class Replacement:
    """A text of a file, which stands in it once, and what takes its place."""

    file: str
    old: str
    new: str


@dataclass(frozen=True)
class Edit:
    """A wrong body in words and as replacements. `unread` are its lines that are none of these."""

    crate: str
    name: str
    sentence: str
    replacements: tuple[Replacement, ...]
    unread: tuple[str, ...]

    def applied(self, texts: dict[str, str]) -> dict[str, str] | None:
        """The files' texts with this edit too, or None where a text of it doesn't stand in its file exactly
        once."""
        made = dict(texts)
        for replacement in self.replacements:
            if made[replacement.file].count(replacement.old) != 1:
                return None
            made[replacement.file] = made[replacement.file].replace(replacement.old, replacement.new)
        return made


def read_edit(crate: str, path: Path) -> Edit:
    """The edit that a file has."""
    lines = path.read_text(encoding="utf-8").splitlines()
    file, old, replacements, unread = "", "", [], []
    for line in lines[1:]:
        if line.startswith("file: "):
            file = line.removeprefix("file: ").strip()
        elif line.startswith("old: "):
            old = line.removeprefix("old: ")
        elif line.startswith("new:") and old:
            replacements.append(Replacement(file, old, line.removeprefix("new:").removeprefix(" ")))
            old = ""
        elif line.strip():
            unread.append(line)
    sentence = COMMENT.sub("", lines[0], count=1) if lines else ""
    return Edit(crate, path.stem, sentence, tuple(replacements), tuple(unread))


def edit_paths(crate: str, *folders: str, root: Path = ROOT) -> list[Path]:
    """The files of a crate's edits, by name; those of both folders where none is named."""
    homes = [root / "crates" / crate / folder for folder in folders or (WRONG_BODIES, MUST_FAIL)]
    return sorted(path for home in homes for path in home.glob("*.edit"))
