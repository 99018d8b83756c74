"""What the toolchain's `rt` knows of a repository's crates: how it checks one, and which sums stand for
what."""

import contextlib
import hashlib
import importlib.machinery
import importlib.util
import os
import shutil
import sys
import tempfile
from collections.abc import Iterator
from pathlib import Path

# Beside a library that `rt ci` built, the sum of the sources that it was built of, as `./check` writes it.
SOURCES = "sources"
# The folders of a crate that a check reads.
PARTS = "src", "specs", "proofs"


class Toolchain:
    """`rt` as a module, over the crates of one repository."""

    def __init__(self, root: Path):
        program = shutil.which("rt") or sys.exit("the toolchain's rt is not on the PATH")
        loader = importlib.machinery.SourceFileLoader("toolchain_rt", os.path.realpath(program))
        self.rt = importlib.util.module_from_spec(importlib.util.spec_from_loader("toolchain_rt", loader))
        loader.exec_module(self.rt)
        # (its first call sets a signal's handler, which only the main thread may)
        self.guard = self.rt.rtlib.guarded()
        self.root, self.identity = root, Path(self.rt.KIT, "KIT-ID").read_text()
        self.rt.Crate.allowed = self.rt.handles_of(str(root))
        self.rt.rtlib.Crate = self.rt.Crate
        found = self.rt.rtlib.crates_below(str(root))
        self.crates = {crate.name: crate for crate in found}

    def keeps_what_it_proved(self) -> bool:
        """Whether a second `rt ci` on this machine takes over what an earlier one proved; older kits
        don't."""
        return hasattr(self.rt, "stamp_of")

    def command(self, crate: str, *words: str) -> list[str]:
        """A check of a crate, from a folder that has its src, specs and proofs, over the libraries below as
        they stand."""
        given = self.crates[crate].words(["--jobs", "1"], keeps=False)
        return [*self.guard, self.rt.rtlib.RATTLE, "check", *given, *words]

    def own_sum(self, crate: str, folder: Path) -> str:
        """The sum of the toolchain, HANDLES, the crate's line of crates.txt, and its sources as a folder has
        them."""
        files = [path for part in PARTS for path in sorted((folder / part).rglob("*")) if path.is_file()]
        texts = [(str(path.relative_to(folder)), path.read_bytes()) for path in files]
        return sum_of_texts(self.identity, self.rt.Crate.allowed, self.crates[crate].said, texts)

    def library_sums(self, crate: str) -> list[tuple[str, str]]:
        """The libraries below a crate as they were built (a library's format holds the sum of its files)."""
        below = self.crates[crate].below()
        return [(library.name, self.rt.rtlib.sum_of(f"{library.rlib}/format")) for library in below]

    def sources(self, crate: str, seen: dict[str, str] | None = None) -> str:
        """The sum of all that a crate stands on: its own sources and those below. `seen` has sums that are
        known."""
        seen = {} if seen is None else seen
        if crate not in seen:
            below = [self.sources(library.name, seen) for library in self.crates[crate].deps]
            seen[crate] = sum_of_texts(self.own_sum(crate, Path(self.crates[crate].folder)), below)
        return seen[crate]

    @contextlib.contextmanager
    def own_libraries(self) -> Iterator[dict[str, str]]:
        """Has the libraries that `rt ci` builds meanwhile stay, and gives the sums of the crates' sources as
        it begins. Libraries that a session's checks left are set aside until the end: `rt ci` would put them
        in place of its own."""
        git = self.root / ".git"
        aside = git / "check-aside" if git.is_dir() else Path(tempfile.mkdtemp(prefix="check-aside-"))
        # (of a run of this that was killed)
        self.put_back(aside)
        # (one of `rt ci` that was killed has old libraries put back by the next: nothing is said of these)
        seen, names = {}, [] if (git / "rt-aside").exists() else self.crates
        try:
            for name, crate in self.crates.items():
                self.set_aside(Path(crate.rlib).parent, aside / name)
            yield {name: self.sources(name, seen) for name in names}
        finally:
            self.put_back(aside)

    @staticmethod
    def set_aside(room: Path, to: Path):
        """Moves a session's library away. One that an earlier `rt ci` left is of no use to a session, and
        goes."""
        if (room / "stamp").is_file():
            to.parent.mkdir(parents=True, exist_ok=True)
            shutil.move(room, to)
        else:
            shutil.rmtree(room, ignore_errors=True)

    def note_sources(self, sources: dict[str, str]):
        """Notes beside each library that `rt ci` built the sources that it was built of, where they are the
        same still."""
        seen = {}
        for name, crate in self.crates.items():
            room = Path(crate.rlib).parent
            is_of_ci = Path(crate.rlib).is_dir() and not (room / "stamp").is_file()
            if is_of_ci and self.sources(name, seen) == sources.get(name):
                (room / SOURCES).write_text(sources[name])

    def put_back(self, aside: Path):
        """Puts libraries back that were set aside, but where a session has built others since."""
        for kept in sorted(aside.iterdir()) if aside.is_dir() else ():
            room = self.root / "crates" / kept.name / "out" / "rlib"
            if room.parent.parent.is_dir() and not (room / "stamp").is_file():
                room.parent.mkdir(exist_ok=True)
                shutil.rmtree(room, ignore_errors=True)
                shutil.move(kept, room)
        shutil.rmtree(aside, ignore_errors=True)

    def fault_below(self, crate: str) -> str | None:
        """What is wrong with the libraries below a crate: that one is missing, or was built of other
        sources."""
        for library in self.crates[crate].below():
            shown = f"crates/{library.name}/out/rlib"
            if not Path(library.rlib).is_dir():
                return f"its library {library.name} isn't built: there is no {shown}/{library.name}.rlib"
            noted = self.rt.rtlib.text_of(f"{Path(library.rlib).parent}/{SOURCES}")
            if not library.is_built() and noted != self.sources(library.name):
                return f"its library {library.name} is stale: {shown} was built of other sources than these"
        return None


def sum_of_texts(*texts: object) -> str:
    return hashlib.sha256(repr(texts).encode()).hexdigest()
