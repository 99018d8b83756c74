"""The options of ./record."""
import argparse
import os
import shlex
import signal
from collections.abc import Callable

LEAKED = 3
MOST_FRAMES = 64  # (as in library/traces.h)
MOST_SECONDS = 24 * 3600
VERSION = "1.2.0"
EPILOG = """
The exit status is 3, or that of --exit, where something leaks; 125 where it is refused; 127 where there is no
such program; 128 and the signal where one ended it; else the program's own. recorder/README.md has the rest.
"""


def signal_number(name: str) -> int:
    """The number of a signal, by its name with or without SIG, or by its number."""
    named = getattr(signal, name if name.startswith("SIG") else f"SIG{name}", None)
    number = int(named) if named else int(signal.Signals(int(name)))
    if number in (signal.SIGKILL, signal.SIGSTOP):
        raise argparse.ArgumentTypeError(f"no program hears {signal.Signals(number).name}")
    return number


def number_to(most: int, least: int = 0) -> Callable[[str], int]:
    def number(text: str) -> int:
        if not text.isdecimal() or not least <= int(text) <= most:
            raise argparse.ArgumentTypeError(f"a number from {least} to {most} is wanted, and not {text}")
        return int(text)

    return number


class Refused(argparse.Action):
    """An option that other tools have, with the reason why it isn't there."""

    def __init__(self, reason: str, **how):
        super().__init__(nargs="?", help=argparse.SUPPRESS, **how)
        self.reason = reason

    def __call__(self, parser, *_):
        parser.error(f"{self.option_strings[0]}: {self.reason}")


# Of debuggers and of valgrind.
OF_OTHERS = {
    "--pid": "what a running process took before isn't noted; start it under ./record, and ask by --now",
    "--leak-check": "it always tells each leak, and knows no levels",
}


def parse(words: list[str]) -> argparse.Namespace:
    """The options in RECORDER_OPTIONS come first, as a shell splits them."""
    words = [*shlex.split(os.environ.get("RECORDER_OPTIONS", "")), *words]
    text = "Runs a C++ program, and tells which of its shared_ptr objects leak and which member to make weak."
    parser = argparse.ArgumentParser("record", description=text, epilog=EPILOG, allow_abbrev=False)
    add = parser.add_argument
    add("--version", action="version", version=f"record {VERSION}")
    add("--report", metavar="FILE", help="write the report to FILE, and not to standard error")
    add("--json", metavar="FILE", help="write all of it to FILE, for other programs")
    add("--dot", metavar="FILE", help="draw the graph of owners, for Graphviz")
    add("--github", action="store_true", help="also write annotations for GitHub's pages")
    add("--stack", action="store_true", help="tell by which functions each leaked object was made")
    add("--quiet", action="store_true", help="say no word where nothing leaks")
    add("--strict", action="store_true", help="what is undecided or reached counts as leaked")
    add(
        "--exit",
        metavar="N",
        type=number_to(255),
        default=LEAKED,
        help="the exit status where something leaks (3)",
    )
    add(
        "--suppress",
        metavar="FILE",
        help="leave out what a line `PATTERN # REASON` of FILE names, by type or by place",
    )
    add(
        "--frames",
        metavar="N",
        type=number_to(MOST_FRAMES),
        default=16,
        help="frames kept of each making (16; 0 is fast)",
    )
    add(
        "--limit",
        metavar="SECONDS",
        type=number_to(MOST_SECONDS, 1),
        default=300,
        help="give up reading memory after so long, and asking gdb for names (300)",
    )
    add(
        "--now",
        metavar="SIGNAL",
        type=signal_number,
        help="also tell what is there, and what has grown, at each SIGNAL",
    )
    add("--keep", metavar="DIR", help="keep what was read of memory, the graph and the map")
    add("--proved", action="store_true", help="ask the proved ./sptr owners too, and compare its answer")
    add("--flags", action="store_true", help="print the flags for exact handles, for CXXFLAGS")
    add("--children", action="store_true", help="tell of processes that the program starts, too")
    for name, reason in OF_OTHERS.items():
        add(name, action=Refused, reason=reason)
    add("program", nargs="?", metavar="PROGRAM")
    add("arguments", nargs=argparse.REMAINDER, metavar="ARG")
    options = parser.parse_args(words)
    if not options.program and not options.flags:
        parser.error("which program?")
    return options
