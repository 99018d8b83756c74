"""What a check of a crate with wrong bodies says of each: whether the prover refuses it for its own
function."""

import re
from dataclasses import dataclass

from rust_functions import Function

REFUSED, NOT_REFUSED, BAD, NOT_TRIED = "refused", "NOT REFUSED", "BAD", "NOT TRIED"
STATUS = re.compile(r"fn (\S+): (.*)")
LOCATED = re.compile(r"(?:note: )?(?:\./)?((?:src|specs|proofs)/\S+?):(\d+):\d+: (.*)")
SAYS_WRONG = re.compile(r"error|it is not proved that")
DOES_NOT_COMPILE = re.compile(r"\berror\[[\w-]+\]")
# A function that is refused since one that it calls is.
CALLS_REFUSED = "no proof: it calls "
# A goal of the function's contract, or of what it calls, that no search proved.
GOAL_LEFT = "no proof: expected answers in "
# What is refused since something else was.
FOR_OTHERS = re.compile(r"was not admitted|depends? on `[^`]*`, which was rejected")
# What an error says of a proof's file that names what the edit took away.
OF_NAMES = re.compile(r"is not in scope|has no field|has no `|has no \w+ `")
UNREAD = re.compile(
    r"is not in scope|has no field|is no name|operand is missing|expected the end|cannot continue"
)
STALE_LIBRARY = re.compile(r"module .Rattle-(\w+)-.*Run the lower steps again")
VERDICT = "logic=not-proved", "only="
KILLED, AT_A_LIMIT = -9, 3
ENDS = {KILLED: "its check was killed", AT_A_LIMIT: "the prover met a limit of its own"}
Functions = tuple[Function, ...]


@dataclass(frozen=True)
class Outcome:
    """What a check came to: its exit status and its lines."""

    status: int
    lines: tuple[str, ...]

    def compiles(self) -> bool:
        return not any(DOES_NOT_COMPILE.search(line) for line in self.lines)

    def has_verdict(self) -> bool:
        """Whether the check went on to its end."""
        ended = any(line.startswith(VERDICT) for line in self.lines[-8:])
        return self.status == 0 or self.status == 1 and ended and self.compiles()

    def stale_library(self) -> str | None:
        """A library whose kept work the check could not use."""
        found = next(filter(None, map(STALE_LIBRARY.search, self.lines)), None)
        return found and found[1]

    def first_error(self) -> str:
        return next((line for line in self.lines if re.search(r"\berror\b", line)), "")


@dataclass(frozen=True)
class Verdict:
    """What came of an edit, and by which line."""

    kind: str
    reason: str


def stands_in(functions: Functions, crate: str, file: str, line: int) -> bool:
    """Whether a line of a file belongs to one of these functions, or to its proof."""
    if file.startswith("src/"):
        return any(file == function.file and line in function.lines for function in functions)
    # (proofs/MODULE/OWNER/NAME/Answers.antt and such, and +NAME where the function calls itself)
    name = "::".join([crate, *(part.removeprefix("+") for part in file.split("/")[1:-1])])
    return file.startswith("proofs/") and any(function.pattern.match(name) for function in functions)


def own_errors(functions: Functions, crate: str, lines: tuple[str, ...]) -> list[tuple[str, str, str]]:
    """The lines that tell of an error in these functions or in their proofs, each with its file and its
    text."""
    found = []
    for line in lines:
        place = LOCATED.match(line)
        if not place or not SAYS_WRONG.match(place[3]) or FOR_OTHERS.search(place[3]):
            continue
        if stands_in(functions, crate, place[1], int(place[2])):
            found.append((line.removeprefix("note: "), place[1], place[3]))
    return found


def verdict_of(functions: Functions, crate: str, outcome: Outcome) -> Verdict | str:
    """What a check says of the edit that turns these functions. Where it doesn't judge them, as one that they
    call is refused, that line."""
    if outcome.status == 0:
        return Verdict(NOT_REFUSED, "all is proved with it")
    said = [found for found in map(STATUS.match, outcome.lines) if found and is_of(functions, found[1])]
    if not said:
        return "no line tells of its function"
    if all(found[2].startswith("proved") for found in said):
        return Verdict(NOT_REFUSED, "its function is proved with it")
    names = {found[1] for found in said if "::fn::" not in found[1]}
    if len(names) > 1 and len(functions) == 1:
        return f"its function may be one of several: {', '.join(sorted(names))}"
    return own_verdict(functions, crate, outcome, [found[0] for found in said])


def is_of(functions: Functions, name: str) -> bool:
    return any(function.pattern.match(name) for function in functions)


def own_verdict(functions: Functions, crate: str, outcome: Outcome, said: list[str]) -> Verdict | str:
    """As `verdict_of`, where one of the functions isn't proved; `said` are the check's lines of them."""
    errors = own_errors(functions, crate, outcome.lines)
    unread = [line for line, file, text in errors if file.startswith("src/") and UNREAD.search(text)]
    of_names = [line for line, file, text in errors if not file.startswith("src/") and OF_NAMES.search(text)]
    false = [line for line, _, _ in errors if line not in unread and line not in of_names]
    goals = [line for line in said if f": {GOAL_LEFT}" in line]
    if false or goals:
        return Verdict(REFUSED, (false or goals)[0])
    if unread:
        return Verdict(BAD, unread[0])
    if of_names:
        return Verdict(NOT_REFUSED, f"only a proof's file names what it takes away: {of_names[0]}")
    # (a function whose whole proof is written by hand has no such proof for this body, which says nothing of
    # it)
    lacking = [line for line in said if ": no proof: expected " in line]
    if lacking:
        return Verdict(NOT_REFUSED, f"only a proof's file is wanting: {lacking[0]}")
    return next((line for line in said if ": proved" not in line), said[0])


def verdict_alone(functions: Functions, crate: str, outcome: Outcome) -> Verdict:
    """What came of a check with one edit alone, which turns these functions."""
    if outcome.has_verdict():
        found = verdict_of(functions, crate, outcome)
        if isinstance(found, Verdict):
            return found
        return Verdict(NOT_REFUSED, f"not for its own function: {found}")
    if not outcome.compiles():
        return Verdict(BAD, f"it doesn't compile: {outcome.first_error()}")
    why = ENDS.get(outcome.status, f"status {outcome.status}")
    return Verdict(NOT_TRIED, f"{why}: {outcome.first_error()}")
