"""Limits on recorder's page that want a build of their own."""
import re
import subprocess
import tempfile
from pathlib import Path

from tests.recorder.building import HUNG, PROGRAMS, ROOT, differences


def names_of_two_files_linked_as_one() -> str:
    """Of classes of one name in namespaces without a name, linked by -flto, members are told by byte: no
    other file's member is named."""
    with tempfile.TemporaryDirectory() as folder:
        program = Path(folder, "same_names")
        sources = "same_names.cc", "same_names.unit.cc"
        subprocess.run(["g++", "-g", "-flto", *sources, "-o", program], check=True, cwd=PROGRAMS)
        words = [ROOT / "record", program]
        ran = subprocess.run(words, capture_output=True, text=True, cwd=PROGRAMS, timeout=HUNG)
    weakens = re.findall(r"^weaken .*", ran.stderr, re.M)
    node = "weaken (anonymous namespace)::Node at byte"
    wanted = [f"{node} 8", f"{node} 0", f"{node} 80"]
    return differences(weakens=(weakens, wanted), status=(ran.returncode, 3))


CHECKS = [names_of_two_files_linked_as_one]
