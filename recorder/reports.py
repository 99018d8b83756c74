"""The reports on a run's records: each is told once, where it is wanted, and kept as far as that is asked."""
import contextlib
import sys
import time
from argparse import Namespace
from pathlib import Path

from recorder import drawing, program, proved, report, report_data, verdicts
from recorder.asking import Asking, TooLong
from recorder.record_text import read

REFUSED = 125  # the status where nothing can be told
LONG = 5  # seconds of reading and telling that are told
WHEN = {
    "_exit": "the program ended by _exit: no destructor of a static has run",
    "quick_exit": "the program ended by quick_exit: no destructor of a static has run",
    "SIGTERM": "the program was ended by SIGTERM: no destructor has run",
    "SIGINT": "the program was ended by SIGINT: no destructor has run",
    "now": "while the program runs",
}


def say(line: str):
    with contextlib.suppress(OSError):  # (as where standard error is full)
        print(line, file=sys.stderr, flush=True)


NEVER_FREED = []  # what takes as long to free as to read, and is needed to the end


class Reports:
    """Tells each record once, and keeps what is asked for."""

    def __init__(self, asked: Namespace, folder: str, suppressed: list):
        self.asked, self.folder, self.suppressed = asked, folder, suppressed
        self.seen, self.as_json, self.refused, self.leaks = set(), [], [], False
        self.is_whole = False  # a record of an end is there
        self.before = None  # the report of the snapshot before
        self.unwritten = set()
        self.file = open(asked.report, "w") if asked.report else None
        for path in program.records(folder):
            path.unlink()  # of an earlier run

    @contextlib.contextmanager
    def written(self, path: str):
        """Where it can't be written, as on a full disk, that is told once, and the status stays."""
        try:
            yield
        except OSError as fault:
            if path not in self.unwritten:
                self.unwritten.add(path)
                say(f"record: {path}: {fault.strerror}")

    def say(self, line: str):
        with self.written(self.asked.report or "standard error"):
            print(line, file=self.file or sys.stderr, flush=True)

    def look(self):
        for path in program.records(self.folder):
            if path not in self.seen:
                self.seen.add(path)
                try:
                    self.tell(path)
                except OSError as fault:  # (the program goes on)
                    self.refuse(program.reason(fault))

    def tell(self, path: Path):
        began = time.monotonic()
        try:
            record = read(path)
        except ValueError as why:
            return self.refuse(f"of its record: {why}")
        self.is_whole |= record.when != "now"
        if record.refused:
            return self.refuse(record.refused)
        if record.untyped and not record.blocks:
            return self.refuse(
                "it is compiled without RTTI: control blocks are there, and tell no type; see --flags"
            )
        if self.asked.children and not record.blocks:
            return None
        record.asking = Asking(self.asked.limit)
        try:
            findings = verdicts.findings_of(record, self.suppressed)
        except TooLong as why:
            return self.refuse(str(why))
        NEVER_FREED.append(findings)
        if self.asked.proved:
            findings.compared = proved.difference(findings.graph, findings.answer) or "the same"
        uncertain = findings.undecided or findings.reached_and_told
        leaks = bool(findings.alarming or self.asked.strict and uncertain)
        self.leaks |= leaks
        if leaks or not self.asked.quiet:
            self.say_all(findings, path)
            self.say_times(record.milliseconds / 1000, time.monotonic() - began)
        self.keep(findings, path)
        return None

    def say_times(self, reading: float, telling: float):
        if reading + telling >= LONG:
            self.say(
                f"record: reading its memory took {reading:.0f} s, and telling what is left {telling:.0f} s"
            )

    def say_all(self, findings: verdicts.Findings, path: Path):
        when = findings.record.when
        if when != "exit":
            self.say(f"record: {WHEN[when]}")
        if self.asked.children:
            self.say(f"record: process {path.suffixes[0][1:]}")
        for line in report.lines(findings, self.asked.stack, self.before if when == "now" else None):
            self.say(line)
        if when == "now":
            self.before = findings
        with self.written("standard output"):
            for line in report.annotations(findings) if self.asked.github else ():
                print(line, flush=True)

    def keep(self, findings: verdicts.Findings, path: Path):
        if self.asked.json:
            self.as_json.append(report_data.as_json(findings))
        if self.asked.dot:
            with self.written(self.asked.dot):
                Path(self.asked.dot).write_text(drawing.dot(findings))
        if self.asked.keep:
            Path(f"{path}.graph").write_text(findings.graph.text())
            Path(f"{path}.map").write_text(report.map_text(findings))

    def refuse(self, why: str):
        self.refused.append(why)
        self.say(f"record: refused: {why}")

    def status(self, of_program: int) -> int:
        if self.leaks:
            return self.asked.exit
        return REFUSED if self.refused else of_program
