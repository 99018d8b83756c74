"""The programs of the recorder's tests, and how long one may take."""
import subprocess
from pathlib import Path

ROOT = Path(__file__).resolve().parent.parent.parent
PROGRAMS = ROOT / "tests/recorder/programs"
UNCHANGED = PROGRAMS / "unchanged"
HUNG = 1800  # seconds after which a run is taken for hung, however busy the machine is


def built_unchanged(folder: str, name: str, *flags: str) -> Path:
    """A program that a recorder changes easily."""
    to = Path(folder, name)
    command = ["g++", "-g", "-O2", "-std=c++17", "-pthread", UNCHANGED / f"{name}.cc", "-o", to, *flags]
    subprocess.run(command, check=True)
    return to


def built(folder: str, name: str, text: str = None) -> Path:
    """A program of the tests, or of a text, compiled in its source's folder."""
    source = PROGRAMS / f"{name}.cc"
    if text:
        source = Path(folder, f"{name}.cc")
        source.write_text(text)
    to = Path(folder, name)
    subprocess.run(["g++", source.name, "-g", "-pthread", "-o", to], check=True, cwd=source.parent)
    return to


def at_most(kilobytes: int, words: list) -> list:
    """A command in which files are at most so long."""
    return ["bash", "-c", f'ulimit -f {kilobytes} && exec "$@"', "bash", *words]


def differences(**pairs: tuple) -> str:
    """What isn't as it should be, of pairs (found, wanted)."""
    return "\n".join(
        f"{name}: {found!r} {wanted!r}" for name, (found, wanted) in pairs.items() if found != wanted
    )
