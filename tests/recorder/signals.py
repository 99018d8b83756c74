"""Signals to ./record and to its program: each ends the program in its place, and snapshots come by one.

Nothing here goes by the clock: a program says that it is ready, and a report is waited for."""
import contextlib
import os
import signal
import subprocess
import tempfile
import time
from collections.abc import Iterator
from pathlib import Path

from tests.recorder.building import HUNG, ROOT, built, built_unchanged, differences

RECORD = ROOT / "record"
LEAKED = 3
RUNS = 10
PIPES = {"stdin": subprocess.PIPE, "stdout": subprocess.PIPE, "stderr": subprocess.PIPE, "text": True}
# Those that end servers: the program is read, and then ends by it.
READ_AT = {signal.SIGTERM, signal.SIGINT}


def words_for(program: Path) -> list:
    """(what runs in the background ignores some signals: here none is)"""
    return ["env", "--default-signal", RECORD, program]


def signals_are_the_programs() -> str:
    """Each that would end it ends the program in its place, and nothing is left running."""
    names = "HUP INT QUIT USR1 USR2 ALRM TERM PIPE XCPU ABRT RTMIN RTMAX"
    with tempfile.TemporaryDirectory() as folder:
        program = built_unchanged(folder, "waiting")
        return "".join(is_the_programs(program, getattr(signal, f"SIG{name}")) for name in names.split())


def is_the_programs(program: Path, number: int) -> str:
    with subprocess.Popen(words_for(program), **PIPES) as process:
        child = int(process.stdout.readline())
        process.send_signal(number)
        said = process.communicate(timeout=HUNG)[1]
    name = signal.Signals(number).name
    wanted = [f"record: the program was ended by {name}: what it left was not read"]
    if number in READ_AT:
        wanted = [f"record: the program was ended by {name}: no destructor has run"]
        wanted += ["record: 0 objects that shared pointers own are left, 0 leaked"]
    lines = said.splitlines()
    right = lines[: len(wanted)] == wanted and (number in READ_AT or len(lines) == 1)
    ended = process.returncode == 128 + number and not Path(f"/proc/{child}").exists()
    return "" if right and ended else f"{name} {process.returncode} {said}"


def a_signal_at_any_time() -> str:
    """Before the program is there, while it is loaded, and later: it ends all, and one line says by what."""
    wrong = []
    with tempfile.TemporaryDirectory() as folder:
        program = built_unchanged(folder, "waiting")
        for run in range(2 * RUNS):
            number = (signal.SIGTERM, signal.SIGINT)[run % 2]
            with subprocess.Popen(words_for(program), **PIPES) as process:
                time.sleep(0.03 * run)
                process.send_signal(number)
                # (a program that is left running keeps these open)
                said = process.communicate(timeout=HUNG)[1]
            is_of_program = process.returncode == 128 + number
            line = f"record: the program was ended by {signal.Signals(number).name}: "
            # (SIGINT while Python itself begins is Python's)
            is_early = said.endswith("KeyboardInterrupt\n") or (process.returncode, said) == (-number, "")
            right = said.startswith(line) if is_of_program else is_early
            wrong += [] if right else [f"{run} {process.returncode} {said}"]
    return "\n".join(wrong)


def a_signal_within_malloc() -> str:
    """Where SIGTERM comes within the recorder's own code, the program is told of all the same."""
    wrong = []
    with tempfile.TemporaryDirectory() as folder:
        program = built_unchanged(folder, "busy")
        for run in range(RUNS):
            with subprocess.Popen([RECORD, program], **PIPES) as process:
                process.stdout.readline()
                time.sleep(0.01 + 0.0017 * run)  # (any time will do)
                process.send_signal(signal.SIGTERM)
                said = process.communicate(timeout=HUNG)[1]
            right = "leaked 1 Node, made at" in said and process.returncode == LEAKED
            wrong += [] if right else [f"{process.returncode} {said}"]
    return "\n".join(wrong)


WAITING = """
#include <memory>
#include <thread>
#include <chrono>
#include <cstdio>
#include <unistd.h>
struct Node { std::shared_ptr<Node> next; };
void leak() { auto a = std::make_shared<Node>(); a->next = a; }
int main() {
  auto kept = std::make_shared<Node>();
  std::thread(leak).join();
  std::puts("ready"); std::fflush(stdout);
  char go; while (read(0, &go, 1) < 0) {}
}
"""


@contextlib.contextmanager
def started(name: str, text: str, asks_by: str) -> Iterator[tuple[subprocess.Popen, int]]:
    """`./record --now` and the number of a program's process that has printed its first line."""
    with tempfile.TemporaryDirectory() as folder:
        command = [RECORD, "--now", asks_by, built(folder, name, text)]
        with subprocess.Popen(command, cwd=folder, **PIPES) as ran:
            ran.stdout.readline()
            (child,) = Path(f"/proc/{ran.pid}/task/{ran.pid}/children").read_text().split()
            yield ran, int(child)


def report_from(ran: subprocess.Popen) -> list[str]:
    """The lines up to a report's last one, which is waited for."""
    lines = []
    while not lines or not lines[-1].startswith("record: the pointers found"):
        line = ran.stderr.readline()
        if not line:
            raise EOFError(f"no report, but {lines}")
        lines.append(line.rstrip("\n"))
    return lines


def a_snapshot_by_signal() -> str:
    """Of a running program: its own frames keep an object, and the leak is told before the end."""
    with started("waiting", WAITING, "USR2") as (ran, child):
        os.kill(child, signal.SIGUSR2)
        asks, *lines = report_from(ran)
        _, at_end = ran.communicate("x")
    wanted = [
        "record: while the program runs",
        "record: 2 objects that shared pointers own are left, 1 leaked",
        "leaked 1 Node, made at waiting.cc:8 in leak",
        "knot 1 Node, tied by Node::next 1",
        "weaken Node::next",
    ]
    last = "record: 1 object that shared pointers own is left, 1 leaked"
    return differences(
        asks=(asks, f"record: kill -USR2 {child} asks for a report"),
        now=(lines[:5], wanted),
        end=(at_end.splitlines()[0], last),
        status=(ran.returncode, LEAKED),
    )


GROWING = """
#include <memory>
#include <vector>
#include <cstdio>
#include <signal.h>
#include <unistd.h>
struct Session { int number = 0; };
int main() {
  auto& sessions = *new std::vector<std::shared_ptr<Session>>;
  char go;
  do {
    std::puts("ready"); std::fflush(stdout);
    if (read(0, &go, 1) != 1 || go == 'x') break;
    for (int i = 0; i < 40; i++) sessions.push_back(std::make_shared<Session>());
  } while (true);
}
"""


def growth_between_snapshots() -> str:
    """What is still reachable grows all the same."""
    with started("growing", GROWING, "USR1") as (ran, child):
        lines = []
        for _ in range(2):
            ran.stdin.write("a")
            ran.stdin.flush()
            ran.stdout.readline()
            os.kill(child, signal.SIGUSR1)
            lines += report_from(ran)
        ran.communicate("x")
    grown = [line for line in lines if line.startswith("grown")]
    return differences(grown=(grown, ["grown 40 Session, made at growing.cc:14 in main"]))


def leaks_of_a_server_that_ends_by_a_signal() -> str:
    text = "#include <memory>\n#include <signal.h>\nstruct Node { std::shared_ptr<Node> next; };\n"
    text += "void leak() { auto node = std::make_shared<Node>(); node->next = node; }\n"
    found = {}
    with tempfile.TemporaryDirectory() as folder:
        for name in "SIGTERM", "SIGINT":
            program = built(folder, "server", f"{text}int main() {{ leak(); raise({name}); }}\n")
            ran = subprocess.run(words_for(program), capture_output=True, text=True, cwd=folder)
            found[name] = (ran.stderr.splitlines()[:3], ran.returncode), (
                [
                    f"record: the program was ended by {name}: no destructor has run",
                    "record: 1 object that shared pointers own is left, 1 leaked",
                    "leaked 1 Node, made at server.cc:4 in leak",
                ],
                LEAKED,
            )
    return differences(**found)


THREADS = """
#include <memory>
#include <thread>
#include <vector>
#include <cstdio>
#include <unistd.h>
struct Node { std::shared_ptr<Node> next; };
int main() {
  auto leaked = std::make_shared<Node>();
  leaked->next = leaked;
  leaked.reset();
  std::vector<std::shared_ptr<int>> kept;
  for (int number = 0; number < 200000; number++) kept.push_back(std::make_shared<int>(number));
  for (int number = 0; number < 4; number++) std::thread(pause).detach();
  std::puts("ready"); std::fflush(stdout);
  pause();
}
"""


def signals_while_it_is_read() -> str:
    """Where more of them come to other threads, as `timeout` sends a second one, the reading goes on."""
    with tempfile.TemporaryDirectory() as folder:
        command = [RECORD, built(folder, "threads", THREADS)]
        with subprocess.Popen(command, cwd=folder, **PIPES) as ran:
            ran.stdout.readline()
            (child,) = Path(f"/proc/{ran.pid}/task/{ran.pid}/children").read_text().split()
            with contextlib.suppress(ProcessLookupError):
                while True:
                    os.kill(int(child), signal.SIGTERM)
                    time.sleep(0.005)
            said = ran.communicate(timeout=HUNG)[1].splitlines()
    wanted = [
        "record: the program was ended by SIGTERM: no destructor has run",
        "record: 200001 objects that shared pointers own are left, 1 leaked",
        "leaked 1 Node, made at threads.cc:9 in main",
    ]
    return differences(said=(said[:3], wanted), status=(ran.returncode, LEAKED))


CHECKS = [
    signals_while_it_is_read,
    signals_are_the_programs,
    a_signal_at_any_time,
    a_signal_within_malloc,
    a_snapshot_by_signal,
    growth_between_snapshots,
    leaks_of_a_server_that_ends_by_a_signal,
]
