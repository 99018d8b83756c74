"""The compiled search of ./record, beside a plain one: on random graphs, with lost owners and without."""
import collections
import random

from recorder import compiled_search, owner_graph, owner_search
from tests.recorder import plain_search
from tests.recorder.proved import some_graph

GRAPHS = 300
NAMES = "leaked", "kept", "ended", "lost"


def verdicts_by_plain_search(graph: owner_graph.Graph) -> list[str]:
    """By object; `lost` is what only lost owners keep."""
    count, roots = len(graph.objects), [to for to, _ in graph.roots]
    found = plain_search.verdicts(count, graph.owners, roots + [to for to, _ in graph.lost])
    kept = plain_search.reached(plain_search.lists_of(count, graph.owners), roots)
    return ["lost" if verdict == "kept" and at not in kept else verdict for at, verdict in enumerate(found)]


def groups_by_plain_search(knots: list[tuple], kinds: list[int], is_told: bytearray) -> list[tuple]:
    """The first of knots alike, and how many they are."""
    found, first = collections.Counter(), {}
    for objects, ties, is_owned in knots:
        if any(is_told[number] for number in objects):
            kind = tuple(kinds[number] for number in objects)
            key = kind, owner_search.shape_of(objects, ties), is_owned
            first.setdefault(key, objects)
            found[key] += 1
    return [(objects, found[key]) for key, objects in first.items()]


def difference(seed: int) -> str:
    chance = random.Random(seed)
    graph = some_graph(chance)
    count = len(graph.objects)
    graph.lost = [(chance.randint(1, count), "lost memory") for _ in range(chance.choice((0, 0, 1)))]
    kinds = [0, *(chance.randint(0, 1) for _ in range(count))]
    is_told = bytearray([0, *(chance.choice((0, 1, 1)) for _ in range(count))])
    roots, lost = [to for to, _ in graph.roots], [to for to, _ in graph.lost]
    search = compiled_search.Search(count, graph.owners, roots, lost)
    knots = owner_graph.Knots(search, graph.owners)
    wanted = verdicts_by_plain_search(graph)
    wanted_knots = plain_search.knots(
        ["kept" if verdict == "lost" else verdict for verdict in wanted], graph.owners
    )
    found_knots = [(knot.objects, knot.ties, knot.is_owned) for knot in knots]
    groups = [(knot.objects, count) for knot, count in knots.groups(kinds, is_told)]
    is_alike = (
        [NAMES[verdict] for verdict in search.verdicts[1:]] == wanted[1:]
        and found_knots == wanted_knots
        and groups == groups_by_plain_search(wanted_knots, kinds, is_told)
    )
    return "" if is_alike else f"seed {seed}: {graph}\n{found_knots}\n{wanted_knots}\n{groups}"


def random_graphs_are_searched_alike() -> str:
    return "\n".join(filter(None, map(difference, range(GRAPHS))))


CHECKS = [random_graphs_are_searched_alike]
