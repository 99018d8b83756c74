"""What a user's file leaves out of the report: lines `PATTERN # REASON`, of a type or of the place of
making."""
import fnmatch
from dataclasses import dataclass
from pathlib import Path


class Refusal(Exception):
    """Why a file of suppressions can't be taken."""


@dataclass
class Suppression:
    pattern: str  # of a shell: `*`, `?` and `[..]` stand for others
    reason: str
    is_used: bool = False

    def names(self, type_: str, made: str) -> bool:
        """Whether it names an object by its type, by the place, as `model.cc:9`, or by the function of its
        making."""
        place, _, function = made.removeprefix("at ").removeprefix("in ").partition(" in ")
        return any(fnmatch.fnmatchcase(text, self.pattern) for text in (type_, made, place, function) if text)


def read(path: str | None) -> list[Suppression]:
    """The suppressions in a file. A line that begins with # is a comment."""
    found = []
    try:
        text = Path(path).read_text("utf-8") if path else ""
    except UnicodeDecodeError as fault:
        raise Refusal(f"{path}: byte {fault.start + 1} is not UTF-8") from fault
    for number, line in enumerate(text.splitlines(), 1):
        if not line.strip() or line.lstrip().startswith("#"):
            continue
        pattern, mark, reason = line.partition(" #")
        if not mark or not reason.strip() or not pattern.strip():
            raise Refusal(f"{path}: line {number}: wanted is PATTERN # REASON")
        found.append(Suppression(pattern.strip(), reason.strip()))
    return found
