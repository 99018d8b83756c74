"""The library and the search are clean by clang-tidy, where that is there."""
import shutil
import subprocess
from pathlib import Path

from tests.recorder.building import ROOT

SOURCES = ROOT / "recorder/library", ROOT / "recorder/search"
# All of bugprone but one, which says of two arguments of one type that a caller might mistake them.
CHECKS_OF_TIDY = "-*,bugprone-*,-bugprone-easily-swappable-parameters,cppcoreguidelines-init-variables"


def faults_of(source: Path) -> str:
    command = ["clang-tidy", "--quiet", "--warnings-as-errors=*", f"--checks={CHECKS_OF_TIDY}", source]
    ran = subprocess.run([*command, "--", "-std=c++17", "-pthread"], capture_output=True, text=True)
    return ran.stdout + ran.stderr if ran.returncode else ""


def library_is_clean() -> str:
    if not shutil.which("clang-tidy"):
        return ""
    sources = [source for folder in SOURCES for source in sorted(folder.glob("*.cc"))]
    return "".join(map(faults_of, sources))


CHECKS = [library_is_clean]
