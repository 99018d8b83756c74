"""The language of scripts, as far as an explanation of a fault reads it: words, statements and names."""

import re
from dataclasses import dataclass

NAME = re.compile(r"[a-z][A-Za-z0-9_]{0,15}")
MEMBERS = ("first", "next", "up")

# What may follow each first word: T a name that is set to an owner, Tw to a weak pointer, Tc to what the cell
# holds; O an owner's name, W a weak one's, Y either, X one of the cell's kind; n a number, F a field, C a
# cell.
SHAPES = {
    "make": [["T", *["n"] * count] for count in range(5)],
    "makethis": [["T", *["n"] * count] for count in range(5)],
    "null": [["T"]],
    "empty": [["T"]],
    "reset": [["O"]],
    "copy": [["T", "O"]],
    "move": [["T", "O"]],
    "alias": [["T", "O", "null"], ["T", "O", "F"], ["T", "O", "O2", "F"]],
    "this": [["T", "O"]],
    "wthis": [["Tw", "O"]],
    "read": [["O"]],
    "place": [["O"]],
    "same": [["O", "O2"]],
    "before": [["Y", "Y2"]],
    "count": [["O"]],
    "weak": [["Tw", "O"]],
    "wcopy": [["Tw", "W"]],
    "wempty": [["Tw"]],
    "wreset": [["W"]],
    "lock": [["T", "W"]],
    "upgrade": [["T", "W"]],
    "wcount": [["W"]],
    "expired": [["W"]],
    "load": [["Tc", "C"]],
    "store": [["C", "X"]],
    "exchange": [["C", "X"]],
    "compare": [["C", "X", "X2"]],
    "compare_weak": [["C", "X", "X2"]],
    "holds": [["C", "X"]],
}


@dataclass
class Word:
    """A word of a line, and at which byte it begins."""

    text: str
    start: int

    def __len__(self):
        return len(self.text)

    @property
    def end(self):
        return self.start + len(self.text)


@dataclass
class Name:
    """The kind of a name, O or W, and the line that declares it."""

    kind: str
    line: int


def words_of(line: bytes) -> list[Word]:
    """The words of a line, which spaces and tabs part."""
    return [Word(it[0].decode("latin-1"), it.start()) for it in re.finditer(rb"[^ \t\r]+", line)]


def is_number(word: str) -> bool:
    return bool(re.fullmatch(r"[0-9]+", word)) and int(word) < 2**64


def is_field(word: str) -> bool:
    return bool(re.fullmatch(r"[0-9]+", word)) and int(word) < 4


def is_cell(word: str) -> bool:
    free = re.fullmatch(r"[sw]([0-9]+)", word)
    name, dot, member = word.partition(".")
    return int(free[1]) < 128 if free else bool(dot and NAME.fullmatch(name) and member in MEMBERS)


def is_weak_cell(word: str) -> bool:
    return word.endswith(".up") or bool(re.fullmatch(r"w[0-9]+", word))


def names_before(lines: list[bytes]) -> dict[str, Name]:
    """The names that are declared in the last thread of these lines."""
    names = {}
    for number, line in enumerate(lines, 1):
        words = [it.text for it in words_of(line)]
        if words == ["thread"]:
            names = {}
        elif words and words[0] in SHAPES and SHAPES[words[0]][0][0][0] == "T":
            weak = is_weak_cell(words[-1]) if words[0] == "load" else SHAPES[words[0]][0][0] == "Tw"
            names.setdefault(words[1], Name("W" if weak else "O", number))
    return names
