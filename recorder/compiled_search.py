"""The compiled search of search/owner_search.cc: the verdicts on a graph's objects, and its knots by their
numbers."""
import ctypes
import functools
from array import array

from recorder import library

LEAKED, KEPT, ENDED, LOST = range(4)
NUMBERS, BYTES = ctypes.POINTER(ctypes.c_int), ctypes.POINTER(ctypes.c_ubyte)
ANSWERS = {
    "first_members": NUMBERS,
    "members": NUMBERS,
    "first_ties": NUMBERS,
    "ties": NUMBERS,
    "shapes": NUMBERS,
    "are_owned": BYTES,
    "firsts_of_groups": NUMBERS,
    "counts_of_groups": NUMBERS,
    "verdicts": BYTES,
    "count_of_knots": ctypes.c_int,
}


@functools.cache
def functions() -> ctypes.CDLL:
    found = ctypes.CDLL(str(library.search_beside(library.build())))
    found.search_owners.restype = ctypes.c_void_p
    for name, answer in ANSWERS.items():
        function = getattr(found, name)
        function.argtypes, function.restype = [ctypes.c_void_p], answer
    return found


def numbers_of(numbers: array) -> ctypes.Array:
    return (ctypes.c_int * max(len(numbers), 1)).from_buffer(numbers or array("i", [0]))


class Search:
    """The search through so many objects: owners are (from, to, label), `lost` those in memory to which
    nothing leads."""

    def __init__(self, count: int, owners: list[tuple], roots: list[int], lost: list[int]):
        labels, self.count = {}, count
        columns = [
            array("i", [owner[0] for owner in owners]),
            array("i", [owner[1] for owner in owners]),
            array("i", [labels.setdefault(owner[2], len(labels)) for owner in owners]),
        ]
        from_, to, label, root, lost_to = self.given = [
            numbers_of(column) for column in (*columns, array("i", roots), array("i", lost))
        ]
        search = functions().search_owners(
            count, len(owners), from_, to, label, len(roots), root, len(lost), lost_to
        )
        self.found = ctypes.c_void_p(search)
        self.verdicts = bytes(self.all("verdicts")[: count + 1])
        self.knots = self.all("count_of_knots")
        self.first_members, self.members = self.all("first_members"), self.all("members")
        self.first_ties, self.tie_numbers = self.all("first_ties"), self.all("ties")
        self.shapes, self.are_owned = self.all("shapes"), self.all("are_owned")

    def all(self, name: str):
        return getattr(functions(), name)(self.found)

    def objects(self, knot: int) -> list[int]:
        return self.members[self.first_members[knot] : self.first_members[knot + 1]]

    def ties(self, knot: int) -> list[int]:
        """The places of a knot's owners among all."""
        return self.tie_numbers[self.first_ties[knot] : self.first_ties[knot + 1]]

    def groups(self, kinds: list[int], is_told: bytearray) -> list[tuple[int, int]]:
        """The first of alike knots with an object that is told, and how many these are. Both arguments are
        by object, with something at place 0."""
        told = (ctypes.c_ubyte * len(is_told)).from_buffer(is_told)
        count = functions().group_knots(self.found, numbers_of(array("i", kinds)), told)
        return list(zip(self.all("firsts_of_groups")[:count], self.all("counts_of_groups")[:count]))
