"""Which lines a statement of a script may tell, in some order of its threads.

`misfit(line, script)` says why no run tells a line; it answers nothing of a line that some run may tell, as
far as its statement alone says.
"""

import re

from language import words_of

# What a statement tells by its first word. N and V are numbers, B.F is a block and a field.
ANSWERS = {
    "count": ["count N"],
    "wcount": ["count N"],
    "expired": ["expired yes", "expired no"],
    "lock": ["lock owner", "lock empty"],
    "upgrade": ["upgrade owner", "refused 5"],
    "read": ["read V"],
    "place": ["place B.F", "place null"],
    "same": ["same yes", "same no"],
    "before": ["before yes", "before no"],
    "compare": ["compare yes", "compare no"],
    "compare_weak": ["compare yes", "compare no"],
    "holds": ["holds yes", "holds no"],
}
# What all of them may tell, and the ends of threads.
ENDS = ["end N N N N", "end null"]
REFUSED = ["refused N"]
CLOSING = ["block N owners N weaks N", "made N ended N left N"]


def is_like(words: str, form: str) -> bool:
    """Whether words are of this form."""
    return bool(re.fullmatch(re.sub("[NVBF]", "[0-9]+", form.replace(".", r"\.")), words))


def statements(script: bytes) -> list[list[str]]:
    """The first words of each thread's statements."""
    threads = [[]]
    for line in script.split(b"\n"):
        words = [] if line.lstrip(b" \t").startswith(b"#") else [it.text for it in words_of(line)]
        if words == ["thread"]:
            threads.append([])
        elif words and words[0] != "version":
            threads[-1].append(words[0])
    return threads


def misfit(line: str, script: bytes) -> str:
    """Why no run of the script tells the line; nothing where one may."""
    threads = statements(script)
    told = re.fullmatch(r"([1-9][0-9]*)\.([1-9][0-9]*|end) (.*)", line)
    if not told:
        may = any(is_like(line, it) for it in CLOSING)
        return "" if may else "a line begins with a thread and a statement, as `2.3 `, or an end, as `2.end `"
    thread, number, words = int(told[1]), told[2], told[3]
    there = threads[thread - 1] if thread <= len(threads) else []
    if thread > len(threads) or number != "end" and int(number) > len(there):
        return f"there is no {thread}.{number}"
    answers = [] if number == "end" else ANSWERS.get(there[int(number) - 1], [])
    may = any(is_like(words, it) for it in [*answers, *ENDS, *(REFUSED if number != "end" else [])])
    return "" if may else f'{thread}.{number} tells {" or ".join(answers or ENDS)}'
