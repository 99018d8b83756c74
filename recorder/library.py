"""What is compiled at the first use: the library that is loaded into programs, and the search."""
import fcntl
import hashlib
import os
import subprocess
from concurrent.futures import ThreadPoolExecutor
from pathlib import Path

HERE = Path(__file__).resolve().parent
SOURCES = HERE / "library"
SEARCH = HERE / "search/owner_search.cc"
# By its name a program that was linked with an older one takes the one that is loaded already. It brings its
# own libstdc++, so that programs which have none get none.
LINKING = ["-shared", "-pthread", "-Wl,-soname,librecorder.so", "-static-libstdc++", "-static-libgcc"]
LINKING += [f"-Wl,--version-script={SOURCES}/exported.map"]
FLAGS = ["-std=c++17", "-O2", "-g1", "-fPIC", "-fvisibility=hidden", "-fno-exceptions", "-pthread"]


def home() -> Path:
    """Where built things lie: the ignored folder `out`, or the user's cache where that can't be written."""
    folder = HERE / "out"
    if not os.access(HERE, os.W_OK) and not os.access(folder, os.W_OK):
        folder = Path(os.environ.get("XDG_CACHE_HOME") or Path.home() / ".cache") / "shared_pointer_recorder"
    folder.mkdir(parents=True, exist_ok=True)
    return folder


def sources():
    return sorted(SOURCES.glob("*.cc"))


def key():
    """What is built depends on these."""
    made_of = hashlib.sha256(" ".join([*FLAGS, *LINKING[:-1]]).encode())
    for path in sorted([*SOURCES.iterdir(), SEARCH]):
        made_of.update(path.read_bytes())
    return made_of.hexdigest()[:16]


def path() -> Path:
    return home() / key() / "librecorder.so"


def is_built() -> bool:
    return path().exists()


def build() -> Path:
    """The built library's path. The search lies beside it."""
    library = path()
    folder = library.parent
    folder.mkdir(exist_ok=True)
    with open(folder / "lock", "w") as lock:
        fcntl.flock(lock, fcntl.LOCK_EX)
        if not library.exists():
            partial = folder / "librecorder.so.part"
            objects = [folder / f"{source.stem}.o" for source in sources()]
            with ThreadPoolExecutor(len(os.sched_getaffinity(0))) as pool:
                list(pool.map(compile_one, sources(), objects))
            compile_one(SEARCH, search_beside(library), "-shared")
            subprocess.run(["g++", *LINKING, "-o", partial, *objects, "-ldl"], check=True)
            partial.rename(library)
            for compiled in objects:
                compiled.unlink()
    return library


def search_beside(library: Path) -> Path:
    return library.with_name("owner_search.so")


def compile_one(source: Path, to: Path, how: str = "-c"):
    subprocess.run(["g++", *FLAGS, how, "-o", to, source], check=True)
