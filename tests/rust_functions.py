"""Where the functions of a Rattle file stand, and by which names a check tells of them."""

import re
from collections import Counter
from dataclasses import dataclass
from itertools import accumulate
from pathlib import Path

LITERAL = re.compile(r"""//[^\n]*|/\*.*?\*/|b?"(?:\\.|[^"\\])*"|b?'(?:\\.[^']*|[^'\\\n])'""", re.S)
# What stands before the braces of a contract's clause, which may have a name.
CLAUSE = re.compile(r"(?:requires|ensures)\*?(?:\s+\w+)?\s*$|ghost\s+\w+\s*:\s*$")
AFTER_CLAUSE = re.compile(r"\s*(?:\{|requires\b|ensures\b)")
BLOCK_OF_METHODS = re.compile(r"^(?:pub(?:\([^)]*\))? )?(?:unsafe )?(impl\b[^{;]*|trait\b[^{;]*)\{", re.M)
FUNCTION = re.compile(r"\bfn\s+(\w+)")
TYPE_ARGUMENTS = re.compile(r"<[^<>]*>")
# What a trait takes first, as `Refused` of `impl<T> From<Refused<T>> for Fault`.
TRAIT_ARGUMENT = re.compile(r"\w\s*<\s*(?:&\s*)?(?:mut\s+)?(?:\w+\s*::\s*)*(\w+)")
# Modules of these names are the crate's root, or the folder that they stand in.
NAMELESS = "lib", "main", "mod"


@dataclass(frozen=True)
class Function:
    """A function with a body: its file, its name, where its body begins and ends in the text, its lines, what
    `--only` takes for it and for its file's module, and a pattern of the names that a check gives it and its
    closures."""

    file: str
    name: str
    body: tuple[int, int]
    lines: range
    path: str
    module: str
    pattern: re.Pattern

    def holds(self, begin: int, end: int) -> bool:
        """Whether a part of the text lies in the body."""
        return self.body[0] < begin and end <= self.body[1]


def masked(text: str) -> str:
    """The text with blanks for comments and literals, at the same places."""
    return LITERAL.sub(lambda found: re.sub(r"[^\n]", " ", found[0]), text)


def closing_brace(text: str, opening: int) -> int:
    """Where the brace that opens at a place is closed."""
    depth = 0
    for place in range(opening, len(text)):
        depth += (text[place] == "{") - (text[place] == "}")
        if not depth:
            return place
    raise ValueError("a brace isn't closed")


def body_after(text: str, name_end: int) -> tuple[int, int] | None:
    """Where the body of a function begins and ends whose name ends at a place; None if it has none."""
    depth, clause_begin, place = 0, name_end, name_end
    while place < len(text):
        sign = text[place]
        depth += (sign in "([") - (sign in ")]")
        if sign == ";" and not depth:
            return None
        if sign == "{" and not depth:
            end = closing_brace(text, place)
            if not CLAUSE.search(text[clause_begin:place]):
                if AFTER_CLAUSE.match(text, end + 1):
                    raise ValueError(f"what is a clause and what a body? {text[place:end][:60]}")
                return place, end
            place = clause_begin = end
        place += 1
    return None


def last_word(text: str) -> str:
    return re.escape((re.findall(r"\w+", text) or [""])[-1])


def argument_of(header: str) -> str:
    """What the trait of an impl with this header takes first, without its own arguments; empty where
    nothing."""
    trait, _, of_type = header.partition(" for ")
    found = (
        TRAIT_ARGUMENT.search(re.sub(r"^\s*impl\s*(?:<(?:[^<>]|<[^<>]*>)*>)?", "", trait))
        if of_type
        else None
    )
    return found[1] if found else ""


def is_of_one_type(header: str) -> bool:
    """Whether this impl's type has an argument that is no parameter of the impl, as
    `FreeCells<SharedCell>`."""
    depths = list(accumulate((sign == "<") - (sign == ">") for sign in header))
    end = depths.index(0, header.index("<")) if re.match(r"\s*impl\s*<", header) else 0
    of_type = re.split(r"\bwhere\b", header[end:])[0].partition("<")[2]
    return any(word not in re.findall(r"\w+", header[:end]) for word in re.findall(r"(?<!')\b\w+", of_type))


def owner_pattern(header: str, argument: str = r"\w*") -> str:
    """The pattern of the name that a check gives an impl or a trait with this header."""
    plus = r"(?:\+\w+)+" if is_of_one_type(header) else ""
    while TYPE_ARGUMENTS.search(header):
        header = TYPE_ARGUMENTS.sub("", header)
    words = re.split(r"\bwhere\b", header)[0].strip()
    if words.startswith("trait"):
        return re.escape(re.findall(r"\w+", words)[1])
    words = words.removeprefix("impl")
    if " for " not in words:
        # (a check has such an argument behind the type's name, as `FreeCells+SharedCell`)
        return last_word(words) + plus
    trait, _, of_type = words.partition(" for ")
    both = rf"{last_word(of_type)}\w*{last_word(trait)}{argument}"
    # (an impl of Drop has the type's name alone)
    return f"(?:{both}|{last_word(of_type)})" if last_word(trait) == "Drop" else both


def owner_patterns(headers: list[str]) -> list[str]:
    """The patterns of the names of a file's impls and traits. Impls of one trait for one type are told apart
    by what the trait takes first, which a check's name then has, as `FaultFromRefused`."""
    alike = Counter(owner_pattern(header) for header in headers)
    return [
        owner_pattern(header, argument_of(header)) if alike[pattern] > 1 else pattern
        for header, pattern in ((header, owner_pattern(header)) for header in headers)
    ]


def item_begin(text: str, place: int) -> int:
    """Where the item begins in which a place lies, with its attributes."""
    before = max(text.rfind(sign, 0, place) for sign in "{};")
    return before + 1 + len(text[before + 1 : place]) - len(text[before + 1 : place].lstrip())


def line_of(text: str, place: int) -> int:
    return text.count("\n", 0, place) + 1


def function_of(crate: str, file: str, text: str, found: re.Match, owner: str | None) -> Function | None:
    """The function whose name was found, if it has a body."""
    body = body_after(text, found.end())
    if not body:
        return None
    module = [part for part in Path(file).with_suffix("").parts[1:] if part not in NAMELESS]
    name = found[1]
    if owner and re.fullmatch(r"\w+", owner):
        path = f"{owner}::{name}"
    else:
        # (its whole module where an impl's name isn't known)
        path = "::".join(module if owner else [*module, name])
    # (a method is named by the module of its type, which may be another)
    home = rf"{crate}::(?:\w+::)*" if owner else re.escape("::".join([crate, *module])) + "::"
    own = f"{owner}::" if owner else ""
    pattern = re.compile(rf"{home}(?:{own}{name}|(?:{own})?fn::(?:{own})?{name}::.*)$")
    lines = range(line_of(text, item_begin(text, found.start())), line_of(text, body[1]) + 1)
    return Function(file, name, body, lines, path, "::".join(module), pattern)


def functions_of(crate: str, file: str, text: str) -> list[Function]:
    """All functions of a file that have a body."""
    text = masked(text)
    blocks = list(BLOCK_OF_METHODS.finditer(text))
    patterns = owner_patterns([found[1] for found in blocks])
    openings = [found.end() - 1 for found in blocks]
    owners = [
        (opening, closing_brace(text, opening), pattern) for opening, pattern in zip(openings, patterns)
    ]
    functions = []
    for found in FUNCTION.finditer(text):
        owner = next((name for begin, end, name in owners if begin < found.start() < end), None)
        functions.append(function_of(crate, file, text, found, owner))
    return [function for function in functions if function]


def function_around(crate: str, file: str, text: str, part: str) -> Function | None:
    """The innermost function in whose body a part of a file's text lies."""
    begin = text.index(part)
    end = begin + len(part)
    around = [function for function in functions_of(crate, file, text) if function.holds(begin, end)]
    return max(around, key=lambda function: function.body[0], default=None)
