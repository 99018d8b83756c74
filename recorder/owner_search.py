"""What mends a knot of owners, by a plain search. Owners are (from, to, label)."""
from itertools import combinations

MOST_LABELS = 20  # of a knot, for pairs of them to be tried

Shape = tuple[tuple[int, int, str], ...]


def shape_of(objects: list[int], ties: list[tuple]) -> Shape:
    """A knot's ties by the places of its objects: knots of one shape are mended alike."""
    place = {number: at for at, number in enumerate(objects)}
    return tuple((place[a], place[b], label) for a, b, label in ties)


class Ties:
    """The owners of a knot of so many objects, by their places, and what ends without some of them."""

    def __init__(self, count: int, ties: Shape):
        self.count, self.ties = count, ties
        self.owns = [[] for _ in range(count)]
        for a, b, label in self.ties:
            self.owns[a].append((b, label))

    def all_end_without(self, labels):
        """Whether each object of the knot ends where the ties so labelled are gone."""
        owned = [0] * self.count
        for _, to, label in self.ties:
            if label not in labels:
                owned[to] += 1
        ended = [place for place in range(self.count) if not owned[place]]
        for place in ended:  # (which grows)
            for to, label in self.owns[place]:
                if label not in labels:
                    owned[to] -= 1
                    if not owned[to]:
                        ended.append(to)
        return len(ended) == self.count


def cuts(objects: list[int], ties: list[tuple]) -> list[tuple]:
    """The ties without each of which alone the knot ends."""
    single = Ties(len(objects), shape_of(objects, [(a, b, at) for at, (a, b, _) in enumerate(ties)]))
    return [tie for at, tie in enumerate(ties) if single.all_end_without({at})]


def weakens(count: int, ties: Shape) -> list[tuple]:
    """Each label without whose owners all of a knot of so many objects ends; where there is none, each pair
    of labels."""
    found = Ties(count, ties)
    labels = list(dict.fromkeys(label for _, _, label in ties))
    single = [(label,) for label in labels if found.all_end_without({label})]
    if single or len(labels) > MOST_LABELS:
        return single
    return [pair for pair in combinations(labels, 2) if found.all_end_without(set(pair))]
