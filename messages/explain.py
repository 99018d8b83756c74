"""What a refusal of `sptr` means: the place in the script or in the list of turns, and what is allowed there.

`explanation(refusal, asked)` takes the line that the program wrote, and what it was asked, and answers the
lines that stand below it; none for a line that it doesn't know.
"""

import difflib
import re
from collections.abc import Iterable
from dataclasses import dataclass, field

from language import MEMBERS, NAME, SHAPES, Name, is_cell, is_field, is_number, names_before, words_of

NAMES = "a name is a letter a to z, then letters, digits or _, at most 16 bytes"
CELLS = "free cells are s0 to s127 for owners and w0 to w127 for weak pointers"
HEADER = "the header is `version 2 blocks N`, with N from 64 to 65535"
KINDS = {"O": "owner", "W": "weak pointer"}
# How the table of statements writes names that are set: both kinds of them are T there.
LETTERS = {"Tw": "T", "Tc": "T"}

# What a refused statement's number means, as the run tells it.
OF_STATEMENTS = {
    3: "no block is vacant for this thread: `reset` names of objects, or ask for more by "
    "`version 2 blocks N`",
    4: "the thread has as many pointers as it may hold",
    5: "nobody owns the object any more",
    6: "the name points nowhere",
    7: "the name points outside of what it owns",
    8: "the object was not made by `makethis`, so that it gives no pointers to itself",
}

INPUT, OUTPUT = "refused 13: input", "refused 12: output"
# What a refusal without a place means.
OF_REFUSALS = {
    "refused 1: memory": ["the system gave less memory than the run takes; a script takes 128 bytes a block"],
    "refused 4: limit: 1000000 states are seen at most, or N with --most N": [
        "threads that tell other lines in other orders have many states: ask with fewer statements, "
        "or by a greater N"
    ],
}


@dataclass
class Asked:
    """What the program was asked: the script's name and bytes, the list of turns, the words after `--from`,
    `--to` and `--most`, how many acts a run has that ends before its part, why its input or output failed,
    and what finds the faults of its lines, by their causes."""

    name: str = "standard input"
    script: bytes = b""
    turns: str = ""
    part: dict = field(default_factory=dict)
    acts: int | None = None
    reason: str = ""
    finders: dict = field(default_factory=lambda: FINDERS)


@dataclass
class Fault:
    """What is wrong at which bytes of a line: from `start`, `length` of them."""

    start: int
    length: int
    why: str
    more: list = field(default_factory=list)


def explanation(refusal: str, asked: Asked) -> list[str]:
    """The lines that stand below a refusal."""
    syntax = re.fullmatch(r"refused 10: line (\d+): (.+)", refusal)
    if syntax:
        return of_line(int(syntax[1]), syntax[2], asked)
    turn = re.fullmatch(r"refused 11: turn (\d+)", refusal)
    if turn:
        return of_turn(int(turn[1]), asked)
    if refusal.startswith("refused 4: limit: "):
        return of_part(asked) or OF_REFUSALS.get(refusal, [])
    if refusal == OUTPUT:
        return [f'standard output: {asked.reason or "what reads it took no more"}']
    if refusal == INPUT:
        return [f'{asked.name}: {asked.reason or "it could not be read"}']
    return OF_REFUSALS.get(refusal, [])


def of_turn(position, asked):
    """The turn of this position, from 1, and what it shall be."""
    turns = asked.turns.split(",")
    word = turns[position - 1] if position <= len(turns) else ""
    threads = 1 + sum(line.split() == [b"thread"] for line in asked.script.split(b"\n"))
    if not re.fullmatch(r"[0-9]+", word):
        return [f"turn {position} is `{shown(word.encode())}`, which is no number"]
    there = f"there are {threads} threads" if threads > 1 else "there is 1 thread"
    return [f"turn {position} is {word}; {there}"]


def of_part(asked):
    """What is wrong with the numbers of a part, where they name none."""
    for option, word in asked.part.items():
        if not re.fullmatch(r"\+?[0-9]+", word) or not 0 < int(word) < 2**32:
            return [f"{option} is `{shown(word.encode())}`, which is no number from 1 to {2**32 - 1}"]
    if {"--from", "--to"} <= set(asked.part) and int(asked.part["--from"]) > int(asked.part["--to"]):
        return [f'act {asked.part["--from"]} comes after act {asked.part["--to"]}']
    if asked.acts is not None:
        return [f"the run has {asked.acts} acts"]
    return []


def shown(text):
    """Bytes as they can be printed: each that is none of 0x20 to 0x7E as \\xHH."""
    return "".join(chr(it) if 0x20 <= it <= 0x7E else f"\\x{it:02x}" for it in text)


def of_line(number, cause, asked):
    """The line, with a mark under what is wrong, and what is allowed there."""
    lines = asked.script.split(b"\n")
    if not 0 < number <= len(lines):
        return []
    text = lines[number - 1]
    text = text[:-1] if text.endswith(b"\r") else text
    # (tabs are one column wide here, as the mark below counts columns)
    fault = asked.finders[cause](text, lines[: number - 1])
    before = len(shown(text[: fault.start].replace(b"\t", b" ")))
    wide = max(len(shown(text[fault.start : fault.start + fault.length].replace(b"\t", b" "))), 1)
    left = str(number)
    gap = " " * len(left)
    return [
        f"{gap}--> {asked.name}:{number}:{fault.start + 1}",
        f'{left} | {shown(text.replace(bytes([9]), b" "))}',
        f'{gap} | {" " * before}{"^" * wide} {fault.why}',
        *(f"{gap} = {it}" for it in fault.more),
    ]


def written(statement):
    """The forms of a statement, by the letters of the table of the language."""
    forms = [
        " ".join((statement, *(LETTERS.get(it, it) for it in shape))) for shape in SHAPES.get(statement, [[]])
    ]
    return f'it is written `{"` or `".join(forms)}`'


def whole(text: bytes, why: str) -> Fault:
    """All words of a line are at fault."""
    words = words_of(text)
    start, end = (words[0].start, words[-1].end) if words else (0, len(text))
    return Fault(start, end - start, why)


def near(word: str, known: Iterable[str]) -> list[str]:
    """A hint at the known word that is nearest, where one is near."""
    found = difflib.get_close_matches(word, known, 1, 0.6)
    return [f"did you mean `{found[0]}`?"] if found else []


def unfinished_line(text: bytes, _before: list[bytes]) -> Fault:
    return Fault(len(text), 1, "a line feed ends each line, the last one too")


def bad_byte(text: bytes, _before: list[bytes]) -> Fault:
    start = next((i for i, it in enumerate(text) if it != 9 and not 0x20 <= it <= 0x7E), 0)
    why = "only the bytes 0x20 to 0x7E and tabs stand in a line, and a carriage return before its end"
    return Fault(start, 1, why)


def unknown_statement(text, _before):
    word = words_of(text)[0]
    if word.text == "version":
        return Fault(
            word.start, len(word), "a header stands in the first line that is neither empty nor a comment"
        )
    why = f"`{word.text}` begins no statement"
    more = comment(word.text) or near(word.text, [*SHAPES, "thread", "version"])
    return Fault(word.start, len(word), why, more)


def comment(word):
    if word.startswith("#"):
        return ["a comment stands in a line of its own"]
    return ["a comment begins with `#`, in a line of its own"] if re.match("//|--|;|/[*]", word) else []


def wrong_number(text, _before):
    first, *others = (it.text for it in words_of(text))
    if first == "version":
        return whole(text, HEADER)
    fault = whole(text, written(first))
    fault.more = [hint for word in others for hint in comment(word)][:1]
    return fault


def too_many_threads(text, _before):
    return whole(text, "a script has at most 16 threads, and 64 below the header `version 2 blocks N`")


def too_many_statements(text, _before):
    return whole(text, "a script has at most 65536 statements")


def bad_version(text, _before):
    return whole(text, HEADER)


def roles_of(text):
    """The words of a statement after the first, each with what it shall be, in the order in which one looks
    at them."""
    first, *words = words_of(text)
    for shape in SHAPES.get(first.text, []):
        if len(shape) == len(words) and not (shape[-1] == "null" and words[-1].text != "null"):
            pairs = list(zip(words, shape))
            return pairs[::-1] if first.text == "load" else pairs
    return []


def cell_kind(text):
    """The kind of the pointers that the statement's cell holds."""
    cells = [word.text for word, role in roles_of(text) if role == "C"]
    return "W" if cells and (cells[0].endswith(".up") or re.fullmatch(r"w[0-9]+", cells[0])) else "O"


def first_of(text, is_at_fault, why, hints=lambda word: []):
    """The first word that is at fault, in the order in which they are looked at."""
    for word, role in roles_of(text):
        if is_at_fault(word.text, role):
            return Fault(word.start, len(word), why(word.text), hints(word.text))
    return whole(text, why(""))


def is_name(role):
    return role[0] in "TOWYX"


def bad_name(text, _before):
    def hints(word):
        loaded = f"a member is loaded first: `load x {word}`, and then `x` is a name"
        return [loaded] if is_cell(word) and "." in word else []

    return first_of(
        text, lambda word, role: is_name(role) and not NAME.fullmatch(word), lambda word: NAMES, hints
    )


def bad_number(text, _before):
    if words_of(text)[0].text == "version":
        word = words_of(text)[-1]
        return Fault(word.start, len(word), "a script has 64 to 65535 blocks")
    why = "a number is decimal, and at most 18446744073709551615"
    return first_of(text, lambda word, role: role == "n" and not is_number(word), lambda word: why, comment)


def bad_field(text, _before):
    return first_of(
        text, lambda word, role: role == "F" and not is_field(word), lambda word: "a field is 0, 1, 2 or 3"
    )


def bad_cell(text, _before):
    def why(word):
        return "members are first, next and up, of a name" if "." in word else CELLS

    def hints(word):
        statement, *others = (it.text for it in words_of(text))
        swapped = [written(statement)] if any(map(is_cell, others)) else []
        return [hint for part in word.split(".")[1:2] for hint in near(part, MEMBERS)] or swapped

    return first_of(text, lambda word, role: role == "C" and not is_cell(word), why, hints)


def sources(text):
    """The names that a statement reads, each with the word that it stands in and the kind that is wanted."""
    for word, role in roles_of(text):
        if role == "C" and "." in word.text:
            yield word, word.text.split(".")[0], "O"
        elif role[0] in "OWYX":
            yield word, word.text, {"X": cell_kind(text)}.get(role[0], role[0])


def unknown_name(text, before):
    declared = names_before(before)
    for word, name, _ in sources(text):
        if name not in declared:
            why = f"`{name}` is declared by no line above it in this thread"
            return Fault(word.start, len(name), why, near(name, declared))
    return whole(text, "a name is declared by the statement that sets it first")


def wrong_kind(text, before):
    declared = names_before(before)

    def fault(word, name, wanted):
        it = declared[name]
        article = {"O": "an", "W": "a"}
        why = f"`{name}` is {article[it.kind]} {KINDS[it.kind]} since line {it.line}"
        return Fault(word.start, len(name), f"{why}, and {article[wanted]} {KINDS[wanted]} is wanted")

    for word, name, wanted in sources(text):
        if wanted != "Y" and declared.get(name, Name(wanted, 0)).kind != wanted:
            return fault(word, name, wanted)
    for word, role in roles_of(text):
        wanted = {"T": "O", "Tw": "W", "Tc": cell_kind(text)}.get(role)
        if wanted and declared.get(word.text, Name(wanted, 0)).kind != wanted:
            return fault(word, word.text, wanted)
    return whole(text, "a name is of one kind for good")


def used_twice(text, _before):
    word = words_of(text)[-1]
    return Fault(
        word.start, len(word), f"a member of what `{word.text}` points into is not exchanged with it"
    )


def too_many_names(text, _before):
    word = next((word for word, role in roles_of(text) if role[0] == "T"), words_of(text)[0])
    return Fault(word.start, len(word), "a thread has at most 32 names")


FINDERS = {
    "unfinished line": unfinished_line,
    "bad byte": bad_byte,
    "unknown statement": unknown_statement,
    "wrong number of words": wrong_number,
    "too many threads": too_many_threads,
    "too many statements": too_many_statements,
    "bad version": bad_version,
    "bad name": bad_name,
    "bad number": bad_number,
    "bad field": bad_field,
    "bad cell": bad_cell,
    "unknown name": unknown_name,
    "wrong kind of name": wrong_kind,
    "name used twice": used_twice,
    "too many names": too_many_names,
}
