"""Runs the prover as `rt` does, and notes what it took."""

import os
import re
import signal
import sys
from pathlib import Path


def part_of(words: list[str], folder: str) -> str:
    """Which of a crate's parts a run of the prover is for: its proofs, its tests or its wrong bodies."""
    if re.search("/(rt-edit|wrong-bodies)-", folder):
        return "edits"
    return "tests" if "--test" in words else "proofs"


def watch(real: str, log: str) -> int:
    """Runs the real prover with this process's words, and adds a line to the log: the crate, its part, the
    processor seconds and the most memory in MB. Ends as the prover did."""
    words = sys.argv[1:]
    child = os.posix_spawn(real, [real, *words], os.environ)
    _, status, used = os.wait4(child, 0)
    # (a run that names no crate lays files out)
    crate = words[words.index("--crate-name") + 1] if "--crate-name" in words else "(layout)"
    seconds, memory = used.ru_utime + used.ru_stime, used.ru_maxrss // 1024
    with Path(log).open("a", encoding="utf-8") as file:
        file.write(f"{crate} {part_of(words, os.getcwd())} {seconds:.2f} {memory}\n")
    if os.WIFSIGNALED(status):
        signal.signal(os.WTERMSIG(status), signal.SIG_DFL)
        os.kill(os.getpid(), os.WTERMSIG(status))
    return os.waitstatus_to_exitcode(status)
