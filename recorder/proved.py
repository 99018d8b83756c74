"""The proved `sptr owners`, asked the same graph."""
import subprocess
from pathlib import Path

from recorder.owner_graph import Answer, Graph

BUILD = Path(__file__).resolve().parent.parent / "crates/sptr/out/sptr"


class Refusal(Exception):
    """Why there is no proved answer."""


def refuse_unbuilt():
    if not BUILD.is_file():
        raise Refusal("there is no proved build for --proved: ./sptr --prove makes one, once")


def answer_of(graph: Graph, build: Path) -> tuple[list[str], dict]:
    """The verdicts in the order of objects; and by the objects of each knot what mends it, label by label."""
    ran = subprocess.run([build, "owners"], input=graph.text(), capture_output=True, text=True)
    if ran.returncode not in (0, 3):
        raise Refusal(f"sptr owners answers nothing: {ran.stderr.strip()}")
    verdicts, knots = [], {}
    for line in ran.stdout.splitlines():
        kind, *rest = line.split()
        if kind == "object":
            verdicts.append(rest[1])
        elif kind == "knot":
            weakens = knots[tuple(map(int, rest))] = set()
        elif kind == "weaken":
            weakens.add(unordered(line.split(None, 1)[1]))
    return verdicts, knots


def difference(graph: Graph, answer: Answer, build: Path | None = None) -> str:
    """What a build, the proved one where none is given, answers otherwise; or nothing."""
    verdicts, knots = answer_of(graph, build or BUILD)
    for number, (found, wanted) in enumerate(zip(verdicts, answer.verdicts[1:], strict=True), 1):
        if found != wanted:
            return f"object {number} is {found}, and not {wanted}"
    own = {
        tuple(knot.objects): {unordered(" and ".join(labels)) for labels in knot.weakens}
        for knot in answer.knots
    }
    for objects in own.keys() | knots.keys():
        if own.get(objects) != knots.get(objects):
            found, wanted = listed(knots.get(objects)), listed(own.get(objects))
            return f"the knot of object {objects[0]} is mended by {found}, and not {wanted}"
    return ""


def unordered(labels: str) -> str:
    """Two labels that mend a knot together, whichever comes first."""
    return " and ".join(sorted(labels.split(" and ")))


def listed(labels: set | None) -> str:
    return ", ".join(sorted(labels or ())) or "nothing"
