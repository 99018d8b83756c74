"""Scripts of recorded calls, with the lines that `sptr step` has to tell.

A handle that holds something is a free cell, or a member of the object with which it leaves. A call takes
what it needs into names: `t`, `u` for owners, `v`, `w` for weak handles, `x` for an object whose member is
named. Between calls the names are empty.
"""
from collections import Counter, defaultdict
from dataclasses import dataclass, field

CELLS = 128  # free cells of each kind
STATEMENTS = 15_000  # of a script, after which another goes on, so that several run side by side
NAMES = ["empty t", "empty u", "empty x", "wempty v", "wempty w"]
TOLD = {
    "lock": ["lock empty", "lock owner"],
    "upgrade": ["refused 5", "upgrade owner"],
    "expired": ["expired no", "expired yes"],
}


@dataclass
class Script:
    statements: list = field(default_factory=lambda: list(NAMES))
    told: list = field(default_factory=list)
    made: set = field(default_factory=set)
    ended: int = 0

    def tell(self, statement, line):
        self.told.append(f"1.{statement} {line}")

    def end(self, statement, number):
        self.ended += 1
        self.tell(statement, f"end {number} 0 0 0")

    def text(self):
        return "\n".join([f"version 2 blocks {max(64, len(self.made))}", *self.statements]) + "\n"

    def lines(self):
        """What has to be told, but for the blocks that are left."""
        made = len(self.made)
        return [*self.told, f"made {made} ended {self.ended} left {made - self.ended}"]


class Cells:
    """Where the handles of a script lie, and the statements that take from there and put there."""

    def __init__(self):
        self.script = Script()
        self.cells = {}  # by holding: a free cell, or an object and its member
        self.owners = defaultdict(list)  # holdings by object
        self.free = {kind: [f"{kind}{number}" for number in reversed(range(CELLS))] for kind in "sw"}

    def say(self, *statements):
        self.script.statements += statements

    def way(self, number):
        """Owners, the first in a free cell, each other in a member of what the one before it owns. The last
        owns this object."""
        ways, seen = [[it] for it in self.owners[number]], {number}
        for way in ways:  # (which grows)
            cell = self.cells[way[0]]
            if isinstance(cell, str):
                return way
            if cell[0] not in seen:
                seen.add(cell[0])
                ways += [[it, *way] for it in self.owners[cell[0]]]
        raise ValueError(f"object {number} is used, and no owners lead to it")

    def on(self, holding, statement):
        """Says a statement on a holding's cell."""
        cell = self.cells[holding]
        if isinstance(cell, str):
            return self.say(statement.format(cell))
        for owner in self.way(cell[0]):
            place = self.cells[owner]
            self.say(f'load x {place if isinstance(place, str) else f"x.{place[1]}"}')
        return self.say(statement.format(f"x.{cell[1]}"), "reset x")

    def put(self, holding, name):
        """Puts what a name has into a cell for this holding."""
        free = self.free["w" if holding.is_weak else "s"]
        if holding.home and holding.home[0] in self.script.made:
            self.cells[holding] = holding.home
        elif free:
            self.cells[holding] = free.pop()
        else:
            raise ValueError(f"over {CELLS} handles of a kind lie in no plain object")
        self.on(holding, f"exchange {{}} {name}")
        if not holding.is_weak:
            self.owners[holding.object].append(holding)

    def take(self, holding, name):
        """Takes what a holding has into a name."""
        self.on(holding, f"exchange {{}} {name}")
        self.forget(holding)

    def forget(self, holding):
        cell = self.cells.pop(holding)
        if isinstance(cell, str):
            self.free[cell[0]].append(cell)
        if not holding.is_weak:
            self.owners[holding.object].remove(holding)

    def have(self, number):
        """Has `t` own an object, a new one where the script has none of this number."""
        if self.owners[number]:
            self.on(self.owners[number][0], "load t {}")
        else:
            self.say(f"make t {number}")
            self.script.made.add(number)

    def go_on_from(self, before, ended):
        """Makes the objects and handles that another script has, where these objects have ended."""
        owners = [it for it in before if not it.is_weak]
        todo = [it for it in owners if isinstance(before[it], str)]
        for owner in todo:  # (which grows)
            if owner.object not in self.script.made:
                todo += [it for it in owners if before[it][0] == owner.object]
            self.have(owner.object)
            self.put(owner, "t")
        watched = defaultdict(list)
        for it in before:
            if it.is_weak and (isinstance(before[it], str) or before[it][0] in self.script.made):
                watched[it.object].append(it)
        for number, watchers in watched.items():
            self.watch(number, watchers, number in ended)

    def watch(self, number, watchers, is_ended):
        """Sets weak handles on an object; where it has ended it is made for them, and ends."""
        if not is_ended and not self.owners[number]:
            raise ValueError(f"object {number} is watched, and no owners lead to it")
        self.have(number)
        for it in watchers:
            self.say("weak w t")
            self.put(it, "w")
        self.say("reset t")
        if is_ended:
            self.script.end(len(self.script.statements), number)


class Writer:
    """Writes calls to `scripts`; `compared` counts the recorded answers among what these have to tell."""

    def __init__(self, plain):
        self.plain, self.ended, self.compared = plain, set(), Counter()
        self.endings = []  # objects that end, each with the statement that tells it, the innermost last
        self.at = Cells()
        self.scripts = [self.at.script]

    def write(self, call):
        is_end = call.word in ("ends", "ended")
        if len(self.at.script.statements) > STATEMENTS and not self.endings and not is_end:
            self.begin_another()
        if is_end:
            self.end(call)
        elif call.word in ("reset", "wreset"):
            self.leave(call)
        elif call.word in ("count", "wcount", "expired"):
            self.ask(call)
        elif call.word in ("swap", "wswap"):
            self.swap(call, *("tu" if call.word == "swap" else "vw"))
        elif call.word == "make":
            self.make(call.after)
        else:
            self.copy(call)

    def begin_another(self):
        before, self.at = self.at, Cells()
        self.scripts.append(self.at.script)
        self.at.go_on_from(before.cells, self.ended)

    def answer(self, word, line):
        self.compared[word] += 1
        self.at.script.tell(len(self.at.script.statements), line)

    def make(self, holding):
        """Makes an object. What it got while it was made lies in its members from now on."""
        self.at.have(holding.object)
        self.at.put(holding, "t")
        for it in [it for it in self.at.cells if it.home[:1] == (holding.object,)]:
            self.at.take(it, "w" if it.is_weak else "t")
            self.at.put(it, "w" if it.is_weak else "t")

    def copy(self, call):
        word = call.word
        if call.given:
            self.at.on(call.given, f'load {"t" if word in ("copy", "weak") else "w"} {{}}')
        if word in ("lock", "upgrade"):
            self.at.say(f"{word} t w")
            self.answer(word, TOLD[word][call.answer])
            self.at.say("wreset w")
        if word == "weak":
            self.at.say("weak w t", "reset t")
        name, old, reset = ("w", "v", "wreset") if word in ("weak", "wcopy") else ("t", "u", "reset")
        if call.before:
            self.at.take(call.before, old)
        if call.after:
            self.at.put(call.after, name)
        if call.before:
            self.at.say(f"{reset} {old}")

    def swap(self, call, one, two):
        for holding, name in (call.before, one), (call.given, two):
            if holding:
                self.at.take(holding, name)
        for holding, name in (call.after, two), (call.given_after, one):
            if holding:
                self.at.put(holding, name)

    def ask(self, call):
        """Asks by a name, which is one owner more itself."""
        name, reset = ("t", "reset") if call.word == "count" else ("w", "wreset")
        if call.given:
            self.at.on(call.given, f"load {name} {{}}")
        self.at.say(f"{call.word} {name}")
        count = call.answer + (call.word == "count" and call.given is not None)
        is_told = call.word in TOLD
        self.answer(call.word, TOLD[call.word][count] if is_told else f"count {count}")
        self.at.say(f"{reset} {name}")

    def leave(self, call):
        """A handle leaves by a name, or with the script's object that has it as a member."""
        holding = call.before
        ending = self.endings[-1][0] if self.endings else None
        if self.at.cells[holding] == holding.home and holding.home[0] == ending:
            self.at.forget(holding)
        else:
            name = "w" if holding.is_weak else "t"
            self.at.take(holding, name)
            self.at.say(f"{call.word} {name}")

    def end(self, call):
        """An object ends by the last statement, or with the plain object in whose end this one's comes."""
        if call.word == "ended":
            self.endings.pop()
            return
        is_within = self.endings and self.endings[-1][0] in self.plain
        statement = self.endings[-1][1] if is_within else len(self.at.script.statements)
        self.endings.append((call.answer, statement))
        self.ended.add(call.answer)
        self.compared["end"] += 1
        self.at.script.end(statement, call.answer)


def written(reader):
    """The scripts of all calls that were read, and how many answers of each kind they have to tell."""
    writer = Writer(reader.plain)
    for call in reader.calls:
        writer.write(call)
    return writer.scripts, writer.compared
