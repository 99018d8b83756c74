"""Runs of built programs in which allocations are refused."""
import contextlib
import os
import pathlib
import struct
import subprocess
import sys
import tempfile
from typing import NamedTuple

ALONE, FROM = "REFUSE_AT", "REFUSE_FROM"
SOURCE = pathlib.Path(__file__).resolve().with_name("refuse.c")


class Run(NamedTuple):
    """A run's result, how many allocations it asked for, and how many it was given and didn't give back."""

    result: subprocess.CompletedProcess
    asked: int
    kept: int


class Refusing:
    """A preloaded library, built in a folder of its own, that refuses allocations by their numbers."""

    def __init__(self, room):
        self.library, self.told = pathlib.Path(room) / "refuse.so", pathlib.Path(room) / "allocations"
        subprocess.run(["cc", "-shared", "-fPIC", "-O1", "-o", self.library, SOURCE], check=True)

    def run(self, words, script=b"", **refused):
        """A run with `REFUSE_AT` or `REFUSE_FROM` as given. Where no allocation was seen the library isn't in
        the program's way, and nothing that was refused would say anything."""
        self.told.write_bytes(bytes(16))
        told = {name: str(it) for name, it in refused.items()}
        settings = {"LD_PRELOAD": self.library, "ALLOCATIONS": self.told, **told}
        ran = subprocess.run(
            words, input=script, capture_output=True, timeout=120, env={**os.environ, **settings}
        )
        asked, kept = struct.unpack("Nn", self.told.read_bytes())
        if not asked:
            sys.exit(
                f'refusing: no allocation of {" ".join(map(str, words))} was seen, so none can be refused'
            )
        return Run(ran, asked, kept)

    def each(self, words, script=b""):
        """A run for each allocation of the words' own run: with that one refused, and with it and all later
        ones."""
        for number in range(1, self.run(words, script).asked + 1):
            for how in (ALONE, FROM):
                yield how, number, self.run(words, script, **{how: number})


@contextlib.contextmanager
def refusing():
    with tempfile.TemporaryDirectory() as room:
        yield Refusing(room)
