"""The search of ./record and `sptr owners` answer each graph alike. The unproved build of ./sptr serves
here."""
import random
import subprocess
import tempfile
from pathlib import Path

from recorder import owner_graph, proved
from tests.recorder.building import PROGRAMS, ROOT

RECORDED = "knots_in_knots", "inheritance", "two_knots", "statics", "lost_memory", "weak_cache"
GRAPHS = 80


def build() -> Path:
    return Path(
        subprocess.run([ROOT / "sptr", "--build"], capture_output=True, text=True, check=True).stdout.strip()
    )


def graph_of(text: str) -> owner_graph.Graph:
    graph = owner_graph.Graph()
    for line in text.splitlines():
        kind, number, *rest = line.split(" ", 3 if line.startswith(("owner", "weak")) else 2)
        if kind == "object":
            graph.objects.append(" ".join(rest))
        elif kind == "root":
            graph.roots.append((int(number), " ".join(rest)))
        else:
            (graph.owners if kind == "owner" else graph.weaks).append((int(number), int(rest[0]), rest[1]))
    return graph


def some_graph(chance: random.Random) -> owner_graph.Graph:
    """A graph of few objects, with labels that several owners share."""
    count = chance.randint(1, 9)
    graph = owner_graph.Graph([f"T{number}" for number in range(count)])
    for _ in range(chance.randint(0, 2 * count)):
        a, b = chance.randint(1, count), chance.randint(1, count)
        graph.owners.append((a, b, f"T::{chance.choice('abcd')}"))
    for _ in range(chance.randint(0, 2)):
        graph.roots.append((chance.randint(1, count), "a static"))
    return graph


def random_graphs_are_answered_alike() -> str:
    program, wrong = build(), []
    for seed in range(GRAPHS):
        graph = some_graph(random.Random(seed))
        difference = proved.difference(graph, owner_graph.ask(graph), program)
        wrong += [f"seed {seed}: {difference}\n{graph.text()}"] if difference else []
    return "\n".join(wrong)


def recorded_graphs_are_answered_alike() -> str:
    program, wrong = build(), []
    for name in RECORDED:
        with tempfile.TemporaryDirectory() as folder:
            built = Path(folder, name)
            subprocess.run(["g++", "-g", f"{name}.cc", "-o", built], cwd=PROGRAMS, check=True)
            subprocess.run([ROOT / "record", "--keep", f"{folder}/kept", built], capture_output=True)
            (path,) = Path(folder, "kept").glob("*.graph")
            graph = graph_of(path.read_text())
        difference = proved.difference(graph, owner_graph.ask(graph), program)
        wrong += [f"{name}: {difference}"] if difference else []
    return "\n".join(wrong)


def a_wrong_answer_is_seen() -> str:
    """The comparison itself: a verdict and a knot that are changed."""
    graph = owner_graph.Graph(["A", "B"], [(1, 2, "A::b"), (2, 1, "B::a")])
    program, answer = build(), owner_graph.ask(graph)
    answer.verdicts[1] = "kept"
    found = [proved.difference(graph, answer, program)]
    answer = owner_graph.ask(graph)
    answer.knots[0].weakens.pop()
    found.append(proved.difference(graph, answer, program))
    wanted = [
        "object 1 is leaked, and not kept",
        "the knot of object 1 is mended by A::b, B::a, and not A::b",
    ]
    return "" if found == wanted else "\n".join(found)


def the_report_says_who_answered() -> str:
    """With another build in the place of the proved one."""
    code = "import sys; from pathlib import Path; from recorder import command, proved; "
    code += "proved.BUILD = Path(sys.argv.pop(1)); sys.exit(command.main())"
    with tempfile.TemporaryDirectory() as folder:
        built = Path(folder, "circle")
        subprocess.run(["g++", "-g", "circle.cc", "-o", built], cwd=PROGRAMS, check=True)
        words = ["python3", "-c", code, build(), "--proved", built]
        ran = subprocess.run(words, cwd=ROOT, capture_output=True, text=True)
    wanted = "the answer is that of the proved ./sptr owners, and the reading of memory is not proved"
    return "" if ran.returncode == 3 and f"{wanted}\n" in ran.stderr else ran.stderr


def without_a_proved_build() -> str:
    if proved.BUILD.is_file():
        return ""
    ran = subprocess.run([ROOT / "record", "--proved", "true"], capture_output=True, text=True)
    wanted = "record: refused: there is no proved build for --proved: ./sptr --prove makes one, once\n"
    return "" if (ran.returncode, ran.stderr) == (125, wanted) else ran.stderr


CHECKS = [
    random_graphs_are_answered_alike,
    recorded_graphs_are_answered_alike,
    a_wrong_answer_is_seen,
    the_report_says_who_answered,
    without_a_proved_build,
]
