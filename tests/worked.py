"""The worked scripts: those of the folder `scripts`, and those that `faulty_scripts` and `large_scripts`
have."""
import itertools
import pathlib
import re
import sys
from typing import NamedTuple

sys.dont_write_bytecode = True
import faulty_scripts
import large_scripts

FOLDER = pathlib.Path(__file__).resolve().with_name("scripts")
# What a program answers, each with the pattern that may stand in place of a text.
STREAMS = {"stdout": "pattern", "stderr": "stderr_pattern", "status": None}


class Case(NamedTuple):
    """A script with the words of its command line, and the other files of the case by how their names end."""

    name: str
    script: bytes
    words: list
    files: dict

    def wanted(self, came):
        """What shall come on each stream, given what came: where a pattern says it, all that fits is
        wanted."""
        for stream, pattern in STREAMS.items():
            text, pattern = self.files.get(stream), self.files.get(pattern)
            if text is None and pattern is not None:
                fits = re.fullmatch(pattern.strip(), came[stream])
                text = came[stream] if fits else pattern
            yield stream, b"(no file says)" if text is None else text


def of_files(name, files):
    """A case, and the same by each further command that its first word names."""
    script, words = files.pop("script"), files.pop("args", b"").decode().splitlines() or [""]
    for number, command in enumerate(words[0].split(" ")):
        yield Case(
            f"{command}_{name}" if number else name, script, [command, *words[1:]] if command else [], files
        )


def cases():
    """All cases by name."""
    found = {}
    for file in sorted(FOLDER.iterdir()):
        found.setdefault(file.stem, {})[file.suffix.removeprefix(".")] = file.read_bytes()
    for name, files in itertools.chain(faulty_scripts.made(), large_scripts.made()):
        found[name] = files
    return {it.name: it for name, files in found.items() if "script" in files for it in of_files(name, files)}
