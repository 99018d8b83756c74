"""What a user's file suppresses, and what is told all the same."""
import tempfile
from pathlib import Path

from tests.recorder.building import built, differences
from tests.recorder.options import record


def suppressions():
    """By type, by place, by function; a pattern that names nothing is told, one without a reason is
    refused."""
    with tempfile.TemporaryDirectory() as folder:
        program, file = built(folder, "two_knots"), Path(folder, "known")
        file.write_text(
            "# known leaks\nLoop # a cache for ever\ntwo_knots.cc:1[67] # to be mended\nNone* # old\n"
        )
        ran = record("--suppress", file, program)
        file.write_text("Loop\n")
        refused = record("--suppress", file, program)
        file.write_text("Node # known\n")
        reached = record("--strict", "--suppress", file, built(folder, "raw_pointer"))
    wanted = [
        "record: 52 objects that shared pointers own are left, 0 leaked",
        "suppressed 50 Loop, made at two_knots.cc:21 in main: a cache for ever",
        "suppressed 1 Man, made at two_knots.cc:16 in main: to be mended",
        "suppressed 1 Wife, made at two_knots.cc:17 in main: to be mended",
    ]
    lines = ran.stderr.splitlines()
    why = f"record: refused: {file}: line 1: wanted is PATTERN # REASON\n"
    return differences(
        lines=(lines[:4], wanted),
        last=(lines[-1], "record: nothing was left that None* suppresses"),
        status=(ran.returncode, 0),
        reached=((reached.returncode, "reach" in reached.stderr), (0, False)),
        refused=((refused.stderr, refused.returncode), (why, 125)),
    )


def half_of_a_knot():
    """Where one object of a knot is suppressed, the other is told with what mends it."""
    with tempfile.TemporaryDirectory() as folder:
        program, file = built(folder, "two_knots"), Path(folder, "known")
        file.write_text("Loop # known\nMan # known\n")
        lines = record("--suppress", file, program).stderr.splitlines()
    wanted = [
        "record: 52 objects that shared pointers own are left, 1 leaked",
        "leaked 1 Wife, made at two_knots.cc:17 in main",
        "knot 1 Man, 1 Wife, tied by Man::wife 1, Wife::husband 1",
    ]
    return differences(lines=(lines[:3], wanted), weaken=(lines[3].startswith("weaken "), True))


CHECKS = [suppressions, half_of_a_knot]
