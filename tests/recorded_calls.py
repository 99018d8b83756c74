"""The calls that a program made on its handles, in the order of the calls."""
from dataclasses import dataclass, field
from typing import NamedTuple


@dataclass(eq=False)
class Holding:
    """What a handle holds from one call on to another: an object, by its number from 1 in order of making."""

    object: int
    is_weak: bool
    home: tuple = ()  # (object, member), where it leaves as that member of an object that ends


class Call(NamedTuple):
    """A call, what its handle held before and holds then, and the same of a second handle."""

    word: str
    before: Holding = None
    after: Holding = None
    given: Holding = None
    given_after: Holding = None
    answer: int = 0  # of `ends` and `ended` the object's number


@dataclass
class Ending:
    """An object that ends, and the handles that have left since it began to."""

    object: int
    owners: list = field(default_factory=list)
    weaks: list = field(default_factory=list)
    is_plain: bool = True


class Reader:
    """Reads lines into `calls`. An object is `plain` where it ends as one of a script does: nothing is called
    meanwhile but that handles leave, at most two of them owners, and each object that ends by this is plain.
    """

    def __init__(self):
        self.calls, self.plain, self.made = [], set(), 0
        self.objects = {}  # by control block
        self.held = {}  # holdings by handle
        self.endings = []  # the innermost last

    def read(self, line):
        word, *numbers = line.split()
        handle, other, answer = map(int, numbers)
        if word in ("ends", "ended"):
            self.end(word, self.objects[handle])
        elif word in ("reset", "wreset"):
            self.leave(word, handle)
        elif word == "wmove":
            self.leave("wreset", handle)
            self.swap("wswap", handle, other)
        elif word in ("swap", "wswap"):
            self.swap(word, handle, other)
        elif word in ("count", "wcount", "expired"):
            self.add(Call(word, given=self.held.get(handle), answer=answer))
        elif word == "make":
            self.made += 1
            self.objects[other] = self.made
            self.add(Call(word, after=self.hold(handle, Holding(self.made, False))))
        else:
            self.take(word, handle, other, answer)

    def add(self, call):
        for it in self.endings:
            it.is_plain = False
        self.calls.append(call)

    def hold(self, handle, holding):
        if holding:
            self.held[handle] = holding
        return holding

    def take(self, word, handle, other, answer):
        """A handle gets hold of what the other holds."""
        given, before = self.held.get(other), self.held.pop(handle, None)
        is_lock = word in ("lock", "upgrade")
        is_taken = given and (answer or not is_lock)
        after = self.hold(handle, Holding(given.object, word in ("weak", "wcopy")) if is_taken else None)
        if before or given or is_lock:
            self.add(Call(word, before, after, given, answer=answer))

    def swap(self, word, handle, other):
        one, two = self.held.pop(handle, None), self.held.pop(other, None)
        first = self.hold(handle, two and Holding(two.object, two.is_weak))
        second = self.hold(other, one and Holding(one.object, one.is_weak))
        if one or two:
            self.add(Call(word, one, first, two, second))

    def leave(self, word, handle):
        holding = self.held.pop(handle, None)
        if holding:
            self.calls.append(Call(word, before=holding))
            for it in self.endings[-1:]:
                (it.weaks if holding.is_weak else it.owners).append(holding)

    def end(self, word, number):
        self.calls.append(Call(word, answer=number))
        if word == "ends":
            self.endings.append(Ending(number))
            return
        it = self.endings.pop()
        if it.is_plain and len(it.owners) <= 2:
            self.plain.add(number)
            for holding, member in [*zip(it.owners, ("first", "next")), *zip(it.weaks[-1:], ("up",))]:
                holding.home = number, member
        else:
            for outer in self.endings:
                outer.is_plain = False


def read(path):
    reader = Reader()
    with open(path) as lines:
        for line in lines:
            reader.read(line)
    return reader
