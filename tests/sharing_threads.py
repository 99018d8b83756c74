"""Random scripts of few threads that share two cells and have few names. Most have several outcomes."""


def parts(text):
    """What stands between semicolons or line feeds."""
    return text.strip().replace("\n", ";").split(";")


# The names of each thread, by whether they are weak, and the cells that threads share.
NAMES, SHARED = ("ab", "u"), ("s0", "w0")
# What comes most of all, what tells whether others were there before, and what lets go: T and t are targets,
# O and W declared names, C and D cells, N and F numbers.
CELL = parts(
    """
load T C;load T C;load t D;load t D;store C O;store D W;exchange C O;exchange D W;compare C O O
compare_weak C O O;compare D W W;compare_weak D W W;holds C O;holds D W;load T O.first;store O.next O
load t O.up;store O.up W;exchange O.first O;compare O.first O O;holds O.next O
"""
)
TELLING = parts(
    """
count O;wcount W;expired W;lock T W;upgrade T W;read O;expired W;holds C O;holds D W;before O W;same O O
"""
)
DROPPING = parts(
    """
reset O;reset O;wreset W;wreset W;empty T;wempty t;null T;move T O;copy T O;make T N;wcopy t W;wcopy t W
"""
)
# What puts something into a shared cell, and what looks there and tells: of that of owners, of the weak one.
WRITING = (
    parts(
        """
make a 1/store C a;makethis a 5 6/store C a;make a 1/exchange C a;empty a/make b 3/compare C a b
null a/store C a
"""
    ),
    parts(
        """
make a 2/weak u a/store D u;makethis a 4/wthis u a/store D u;make a 1/weak u a/exchange D u/reset a
"""
    ),
)
LOOKING = (
    parts(
        """
load a C/count a;load a C/read a;empty a/holds C a;empty a/exchange C a/read a;load a C/this b a/count b
load a C/place a;empty a/compare C a a;empty a/compare_weak C a a;load b C/same b b/store C b
"""
    ),
    parts(
        """
load u D/lock a u;load u D/expired u;load u D/wcount u;load u D/upgrade b u;wempty u/holds D u
wempty u/exchange D u/expired u;wempty u/compare D u u;load u D/lock a u/read a
"""
    ),
)
# For threads of two acts or so, as of four threads with more there are too many orders.
SHORT = (
    parts(
        """
make a 1/exchange C a;make b 7/store C b;empty a/exchange C a;load a C;load a C/count a
empty a/holds C a
"""
    ),
    parts(
        """
load u D;load u D/expired u;wempty u/holds D u;make a 1;load a C;wempty u/exchange D u
"""
    ),
)


class Thread:
    """A thread of few names, and what it does."""

    def __init__(self, chance, cells, plain):
        self.chance, self.cells, self.names, self.lines = chance, cells, ([], []), []
        self.kinds = {4: CELL, 3: TELLING, 2: DROPPING, 1: plain}

    def begin(self, beginnings, most):
        """One of these beginnings, and fewer than so many statements."""
        for line in self.chance.choice(beginnings).split("/"):
            self.add(line.split())
        for _ in range(self.chance.randrange(most)):
            self.write()
        return "".join(f"{line}\n" for line in self.lines)

    def add(self, words):
        """Adds a statement, whose names are declared by it."""
        said = [self.cells["CD".index(it)] if it in ("C", "D") else it for it in words]
        for names, few in zip(self.names, NAMES):
            names += [it for it in few if it in said and it not in names]
        self.lines.append(" ".join(said))

    def source(self, word):
        """A word that a statement reads."""
        if word[0] in "OW":
            return self.chance.choice(self.names[word[0] == "W"]) + word[1:]
        if word in "NF":
            return str(
                self.chance.randrange(4) if word == "F" else self.chance.choice([0, 1, 7, 2**64 - 1])
            )
        return word

    def write(self):
        """A random statement, if there are names for it."""
        kinds = self.chance.choices(list(self.kinds.values()), list(self.kinds))[0]
        first, *words = self.chance.choice(kinds).split()
        if all(self.names[it[0] == "W"] for it in words if it[0] in "OW"):
            words = [self.source(it) for it in words]
            self.add([first, *(self.chance.choice(NAMES[it == "t"]) if it in "Tt" else it for it in words)])


def random_script(chance, count, plain):
    """A script of so many threads, with plain statements of these kinds too, and whether they share cells."""
    is_weak, is_shared = chance.random() < 0.5, chance.random() < 0.9
    beginnings = [[WRITING, LOOKING], [WRITING, SHORT, SHORT], [SHORT] * 4][count - 2]
    chance.shuffle(beginnings)
    threads = []
    for number, begins in enumerate(beginnings):
        # (where they share none, a cell of one kind has the number of another thread's of the other)
        cells = SHARED if is_shared else (f"s{number}", f"w{count - 1 - number}")
        threads.append(Thread(chance, cells, plain).begin(begins[is_weak], [5, 2, 1][count - 2]))
    header = chance.choice(["", *["version 2 blocks 64\n"] * 4])
    return (header + "thread\n".join(threads)).encode(), is_shared
