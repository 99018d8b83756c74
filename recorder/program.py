"""The program: whether anything can be told of it, and its run."""
import contextlib
import os
import re
import shutil
import signal
import subprocess
from collections.abc import Callable
from pathlib import Path

from recorder import shared_libraries

SANITIZERS = re.compile(r"lib(asan|lsan|tsan|hwasan|msan)\.so")
SANITIZER_SYMBOLS = re.compile(r"__(asan|lsan|tsan|hwasan|msan)_init")


# Signals that don't end who gets them, or can't be waited for; all others are the program's.
NOT_PASSED_ON = {
    signal.SIGKILL,
    signal.SIGSTOP,
    signal.SIGTSTP,
    signal.SIGTTIN,
    signal.SIGTTOU,
    signal.SIGCONT,
}
NOT_PASSED_ON |= {signal.SIGCHLD, signal.SIGURG, signal.SIGWINCH}
PASSED_ON = signal.valid_signals() - NOT_PASSED_ON
HELD = PASSED_ON | {signal.SIGCHLD}
MOST_SCRIPTS = 5  # of which each is the interpreter of the one before, as Linux has it
FROM_KERNEL = 0x80  # the code of signals that keys send: the program gets them too
# What Python ignores, a program that it starts does not.
HEARD = signal.SIGPIPE, signal.SIGXFSZ


class Refusal(Exception):
    """Why nothing can be told."""


class NotFound(Exception):
    """Why there is no such program."""


def reason(fault: OSError) -> str:
    return ": ".join(str(part) for part in (fault.filename, fault.strerror or fault) if part)


def find(name: str) -> str:
    """The program's path, as a shell finds it."""
    path = shutil.which(name)
    if path:
        return path
    if not Path(name).exists():
        raise NotFound("no such program")
    if Path(name).is_dir():
        raise NotFound("it is a folder")
    if "/" not in name and os.access(name, os.X_OK):
        raise NotFound(f"no such program; did you mean ./{name}?")
    raise NotFound("it is not executable")


def interpreter_of(path: str) -> str:
    """The program that runs a script, or the path itself. A script may be another's interpreter."""
    for _ in range(MOST_SCRIPTS):
        with open(path, "rb") as file:
            first = file.readline(4096)
        words = first[2:].decode(errors="replace").split()
        if not first.startswith(b"#!") or not words:
            break
        path = words[0]
        if os.path.basename(path) == "env" and len(words) > 1:
            path = shutil.which(words[1]) or path
    return path


def check(path: str):
    """Raises Refusal for programs, and for scripts by their interpreters, of which nothing can be told."""
    try:
        refuse_unreadable(interpreter_of(path))
    except OSError as fault:  # (of what isn't there, as a loader)
        raise Refusal(reason(fault)) from fault


def refuse_unreadable(path: str):
    """Raises Refusal for programs whose memory the library can't read."""
    with open(path, "rb") as file:
        start = file.read(512)
    if start[:4] != b"\x7fELF":
        is_text = b"\0" not in start
        kind = "a script without an interpreter's line" if is_text else "no program of this machine"
        raise Refusal(f"it is {kind}")
    if start[4] != 2:
        raise Refusal("it is a 32-bit program")
    if not shutil.which("readelf"):
        return  # (the report says so)
    command = ["readelf", "-W", "-l", "-d", "--dyn-syms", path]
    text = subprocess.run(command, capture_output=True, text=True, errors="replace").stdout
    if not re.search(r"^\s+INTERP ", text, re.M):
        raise Refusal("it is linked statically, so that no library can be loaded into it")
    if SANITIZERS.search(text) or SANITIZER_SYMBOLS.search(text):
        raise Refusal("it is built with a sanitizer, which has a malloc of its own")
    if re.search(r" (FUNC|IFUNC) +\w+ +\w+ +\d+ malloc$", text, re.M):
        raise Refusal("it has a malloc of its own")
    if re.search(r"\(NEEDED\).*libc\+\+(abi)?\.so", text):
        raise Refusal("it uses libc++, and only the handles of libstdc++ are known")
    libraries = shared_libraries.libraries_of(path)
    if any(SANITIZERS.search(library) for library in libraries):
        raise Refusal("a sanitizer is loaded into it, which has a malloc of its own")
    if other := shared_libraries.with_malloc(libraries):
        raise Refusal(f"its library {os.path.basename(other)} has a malloc of its own")


@contextlib.contextmanager
def held_signals():
    """While it is open signals to this process wait, until `wait` hands them on to the program. Threads begin
    within, as else they would take the signals. Gives the mask before."""
    before = signal.pthread_sigmask(signal.SIG_BLOCK, HELD)
    try:
        yield before
    finally:
        while signal.sigtimedwait(HELD, 0):
            pass  # (what came too late for the program doesn't end the report)
        signal.pthread_sigmask(signal.SIG_SETMASK, before)


def start(command: tuple, names: dict[str, str], mask: set) -> int:
    """Starts the program in a process of its own, with these variables and its own number in
    RECORDER_PROCESS."""
    process = os.fork()
    if process:
        return process
    try:
        for number in HEARD:
            signal.signal(number, signal.SIG_DFL)
        signal.pthread_sigmask(signal.SIG_SETMASK, mask)
        os.execve(command[0], command[1], {**os.environ, **names, "RECORDER_PROCESS": str(os.getpid())})
    except OSError as fault:
        os.write(2, f"record: {command[0]}: {fault.strerror}\n".encode())
    os._exit(126)


def wait(process: int, look: Callable) -> int:
    """Waits for the end, calling `look` again and again. Signals that end a program are the program's."""
    pause = 0.001
    while True:
        ended, status = os.waitpid(process, os.WNOHANG)
        if ended:
            return os.waitstatus_to_exitcode(status)
        look()
        came = signal.sigtimedwait(HELD, pause)
        if came and came.si_signo in PASSED_ON and came.si_code != FROM_KERNEL:
            os.kill(process, came.si_signo)
        pause = min(pause * 1.5, 0.05)


def records(folder: str) -> list[Path]:
    """What the library has written, in the order of its writing."""
    files = [path for path in Path(folder).iterdir() if re.fullmatch(r"record(\.\d+)+", path.name)]
    return sorted(files, key=lambda path: path.stat().st_mtime_ns)
