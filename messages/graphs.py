"""What is wrong in a line of a graph of owners that `sptr owners` refuses."""

import re

from explain import Fault, bad_byte, near, unfinished_line, whole
from language import words_of

FORMS = {
    "object": "object N` or `object N LABEL",
    "owner": "owner N M LABEL",
    "weak": "weak N M LABEL",
    "root": "root N LABEL",
}
# How many numbers follow the first word.
NUMBERS = {"object": 1, "owner": 2, "weak": 2, "root": 1}
MOST = 16777215


def numbers_of(text):
    """The words of a line that shall be numbers of objects."""
    first, *words = words_of(text)
    return words[: NUMBERS.get(first.text, 0)]


def value(word):
    """The number that a word is; none where it is no object's."""
    number = int(word.text) if re.fullmatch(r"[0-9]+", word.text) else 0
    return number if 0 < number <= MOST else None


def objects_in(lines):
    """The objects that lines name, each with the number of its line."""
    words = ((number, words_of(line)) for number, line in enumerate(lines, 1))
    return {value(it[1]): number for number, it in words if len(it) > 1 and it[0].text == "object"}


def first_number(text, is_at_fault, why):
    """The first number that is at fault."""
    for word in numbers_of(text):
        if is_at_fault(word):
            return Fault(word.start, len(word), why(word.text))
    return whole(text, why(""))


def byte(text, before):
    """One that stands in no line, or a tab in a label."""
    if any(it != 9 and not 0x20 <= it <= 0x7E for it in text):
        return bad_byte(text, before)
    words = numbers_of(text) or words_of(text)[:1]
    label = text.rstrip(b" \t")[words[-1].end :]
    start = words[-1].end + len(label) - len(label.lstrip(b" \t"))
    return Fault(text.find(b"\t", start), 1, "a label has the bytes 0x20 to 0x7E, and no tab")


def statement(text, _before):
    word = words_of(text)[0]
    return Fault(word.start, len(word), f"`{word.text}` begins no line of a graph", near(word.text, FORMS))


def wrong_number(text, _before):
    return whole(text, f"it is written `{FORMS[words_of(text)[0].text]}`")


def bad_number(text, _before):
    return first_number(
        text, lambda it: value(it) is None, lambda _: f"an object has a number from 1 to {MOST}"
    )


def bad_label(text, _before):
    return whole(text, "a label has at most 1000 bytes")


def named_twice(text, before):
    word = numbers_of(text)[0]
    return Fault(word.start, len(word), f"line {objects_in(before)[value(word)]} names it")


def no_such_object(text, before):
    known = objects_in(before)
    return first_number(text, lambda it: value(it) not in known, lambda it: f"no line above is `object {it}`")


def too_many(text, _before):
    return whole(text, "a graph has at most 67108864 handles")


FINDERS = {
    "unfinished line": unfinished_line,
    "bad byte": byte,
    "unknown statement": statement,
    "wrong number of words": wrong_number,
    "bad number": bad_number,
    "bad label": bad_label,
    "object named twice": named_twice,
    "no such object": no_such_object,
    "too many handles": too_many,
}
