#!/usr/bin/env python3
"""Runs `sptr` with its words and streams, and says below a refusal what it means.

usage: messages/tell.py PROGRAM [--explain] [WORD..]
       messages/tell.py --reason REFUSAL [WORD..]

With `--reason` nothing runs: a run with these words was refused so, and why its input or output failed is
said, or what a line of its file means. What was its standard input is file 3 then.
`--explain` stands before the program's own words or among them. With it, more is told on standard error once
the run has ended: what the numbers of refused statements mean, and which statement made each block that is
left. Below the refusal of a line it is said what its statement tells. Standard output and the first
line of a refusal are the program's, and so is the exit status."""

import errno
import os
import pathlib
import re
import select
import stat
import subprocess
import sys

import acts
import graphs
import made
from explain import OF_STATEMENTS, OUTPUT, Asked, explanation
from knots import uncut
from tellings import misfit

# The commands that read a script or a graph, and their options that take a word.
COMMANDS = ("check", "convert", "step", "fine", "run", "left", "draw", "owners", "orders")
TURNS = ("--turns", "--turns-file")
TAKING = (*TURNS, "--from", "--to", "--find", "--most")
WITHOUT_TURNS = ("check", "convert", "run", "orders")
# Those whose turns are acts.
BY_ACTS = ("step", "left", "draw")
# How the refusal of a faulty line begins.
OF_A_LINE = "refused 10: line "
# The exit statuses of what was carried out.
CARRIED_OUT = (0, 3)


def parted(words):
    """The options that take a word, by their names, and the words that are no options, the command among
    them."""
    options, others, rest = {}, [], iter(words)
    for word in rest:
        name, equals, value = word.partition("=")
        if name in TAKING:
            options[name] = value if equals else next(rest, "")
        elif not word.startswith("--"):
            others.append(word)
    return options, others


def bytes_of(path):
    """What a file has, and why it can't be read."""
    try:
        return pathlib.Path(path).read_bytes(), ""
    except OSError as error:
        return b"", os.strerror(error.errno)


def reason_of_output():
    """Why standard output takes no more, as far as that can be told without a byte more."""
    try:
        os.write(1, b"")
        it = os.fstat(1)
        is_full = stat.S_ISREG(it.st_mode) and os.fstatvfs(1).f_bavail == 0
        ended = select.poll()
        ended.register(1, 0)
        has_ended = any(events & select.POLLERR for _, events in ended.poll(0))
    except OSError as error:
        return os.strerror(error.errno)
    return os.strerror(errno.ENOSPC) if is_full else os.strerror(errno.EPIPE) if has_ended else ""


def reason_of_input():
    """Why standard input can't be read."""
    try:
        os.read(3, 1)
    except OSError as error:
        return os.strerror(error.errno)
    return ""


def asked_by(options, files, given):
    """What the words ask; `given` is what standard input had, where that is the script."""
    asked = Asked(script=given or b"", turns=options.get("--turns", ""))
    asked.part = {it: options[it] for it in ("--from", "--to", "--most") if it in options}
    if files:
        asked.name = files[0]
        asked.script, asked.reason = bytes_of(files[0])
    if "--turns-file" in options:
        turns, reason = bytes_of(options["--turns-file"])
        asked.turns = re.sub(r"\r?\n\Z", "", turns.decode("latin-1"))
        if reason:
            asked.name, asked.reason = options["--turns-file"], reason
    return asked


def meanings(output):
    """A line for each number by which a statement was refused."""
    numbers = sorted({int(it) for it in re.findall(rb"(?m)^[0-9]+\.[0-9]+ refused ([0-9]+)$", output)})
    return [f"refused {it}: {OF_STATEMENTS[it]}" for it in numbers if it in OF_STATEMENTS]


def before_part(program, words, options, asked):
    """How many acts a run has that ends before the part of it that is to be drawn."""
    first = asked.part.get("--from", "")
    if not re.fullmatch(r"\+?[0-9]+", first) or not 0 < int(first) < 2**32:
        return None
    how = [f"{it}={options[it]}" for it in TURNS if it in options] + ["--fine"] * ("--fine" in words)
    there = acts.up_to(program, how, int(first), asked.script)
    return there if there < int(first) else None


def of_acts(program, command, words, options, asked):
    """How many acts each thread has, or which turns come when their threads are done."""
    if command == "check":
        return [acts.counted(program, asked.script)]
    if command not in BY_ACTS or "--fine" in words or not asked.turns:
        return []
    turns = [f"{it}={options[it]}" for it in TURNS if it in options]
    return acts.too_late(program, turns, [int(it) for it in asked.turns.split(",")], asked.script)


def failure_of(output):
    """Why what reads standard output doesn't take this; none where it does."""
    try:
        sys.stdout.buffer.write(output)
        sys.stdout.buffer.flush()
    except OSError as error:
        os.dup2(os.open(os.devnull, os.O_WRONLY), sys.stdout.fileno())  # (else Python tries again at its end)
        return os.strerror(error.errno)
    return ""


def reason_below(refusal, words):
    """What stands below the refusal of an input, an output or a line of a file, of a run with these words."""
    options, others = parted(words)
    asked = asked_by(options, others[1:], b"")
    if refusal.startswith(OF_A_LINE):
        return explanation(refusal, asked) if others[1:] else []
    if refusal == OUTPUT:
        asked.reason = reason_of_output()
    elif not asked.reason:
        asked.reason = reason_of_input()
    return explanation(refusal, asked)


def main(program, *words):
    if program == "--reason":
        print(*reason_below(words[0], words[1:]), sep="\n", file=sys.stderr)
        return 1
    explains = "--explain" in words
    words = [it for it in words if it != "--explain"]
    options, others = parted(words)
    command, files = others[0] if others else "", others[1:]
    given = sys.stdin.buffer.read() if command in COMMANDS and not files else None
    finds = command == "orders" and "--find" in options
    watched = finds or explains and command in ("step", "fine", "run", "left")
    ran = subprocess.run(
        [program, *words],
        input=given,
        stdout=subprocess.PIPE if watched else None,
        stderr=subprocess.PIPE,
    )
    failure = failure_of(ran.stdout) if watched else ""
    if failure:
        print(OUTPUT, *explanation(OUTPUT, Asked(reason=failure)), sep="\n", file=sys.stderr)
        return 1
    sys.stderr.buffer.write(ran.stderr)
    refusal = ran.stderr.decode("latin-1").removesuffix("\n")
    asked = asked_by(options, files, given)
    if command == "owners":
        asked.finders = graphs.FINDERS
    if refusal == OUTPUT:
        asked.reason = reason_of_output()
    if command == "draw" and refusal.startswith("refused 4: "):
        asked.acts = before_part(program, words, options, asked)
    lines = explanation(refusal, asked) if ran.returncode == 1 else []
    lines += meanings(ran.stdout) if watched else []
    if finds and refusal.startswith("refused 14: "):
        lines += filter(None, [misfit(options["--find"], asked.script)])
    if explains and command == "left" and ran.returncode != 1:
        lines += made.of_blocks(program, [f"{name}={value}" for name, value in options.items()], asked.script)
        lines += uncut(ran.stdout)
    if explains and ran.returncode in CARRIED_OUT:
        lines += of_acts(program, command, words, options, asked)
    if command in WITHOUT_TURNS and set(TURNS) & set(options):
        lines.append(f"{command} takes no turns; step, fine, left and draw do")
    if command not in COMMANDS and pathlib.Path(command).is_file():
        lines.append(f"{command} is a file, and a command stands before it: step {command}")
    for line in lines:
        print(line, file=sys.stderr)
    return ran.returncode if ran.returncode >= 0 else 128 - ran.returncode


if __name__ == "__main__":
    if len(sys.argv) < 2:
        sys.exit(__doc__)
    sys.exit(main(*sys.argv[1:]))
