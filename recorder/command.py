"""The command line of ./record."""
import gc
import os
import signal
import subprocess
import sys
import tempfile
from argparse import Namespace
from pathlib import Path

from recorder import hook_headers, library, options, program, proved, report_data, suppressions
from recorder.receiving import Receiver
from recorder.reports import REFUSED, Reports, say


def built_library():
    try:
        if not library.is_built():
            say("record: building its library, this once: half a minute of processor time")
        return library.build()
    except (OSError, subprocess.CalledProcessError) as fault:
        raise program.Refusal(f"the library could not be built: {fault}") from fault


def folder_of_sockets() -> str:
    """(a socket's path has at most 107 bytes)"""
    folder = tempfile.gettempdir()
    return folder if len(os.fsencode(folder)) < 80 else "/tmp"


def run(asked: Namespace, folder: str, path: str, reports: Reports) -> int:
    """Runs the program under the library. Returns its exit status, as shells have it."""
    names = {"RECORDER_FILE": f"{folder}/record", "RECORDER_FRAMES": str(asked.frames)}
    names["RECORDER_SECONDS"] = str(asked.limit)
    names["LD_PRELOAD"] = ":".join(filter(None, [str(built_library()), os.environ.get("LD_PRELOAD")]))
    if asked.children:
        names["RECORDER_CHILDREN"] = "1"
    if asked.now:
        names["RECORDER_SIGNAL"] = str(asked.now)
    with tempfile.TemporaryDirectory(dir=folder_of_sockets()) as place, program.held_signals() as mask:
        names["RECORDER_SOCKET"] = f"{place}/socket"
        receiver = Receiver(names["RECORDER_SOCKET"], folder)
        process = program.start((path, [asked.program, *asked.arguments]), names, mask)
        if asked.now:
            say(f"record: kill -{signal.Signals(asked.now).name[3:]} {process} asks for a report")
        status = program.wait(process, reports.look)
        receiver.finish()
    reports.look()
    if receiver.fault:
        reports.refuse(f"its record could not be written to {folder}: {receiver.fault.strerror}")
    elif status < 0 and (reports.refused or not reports.is_whole):
        unread = "" if reports.refused else ": what it left was not read"
        reports.say(f"record: the program was ended by {signal.Signals(-status).name}{unread}")
    elif not reports.seen:
        reports.refuse(
            "it wrote no record: it may have other rights than yours, or have become another program"
        )
    return 128 - status if status < 0 else status


def check_writable(asked: Namespace):
    """Opens what is asked for, so that what can't be written is told before the program runs. The paths stay
    what they are wherever the program goes."""
    for name in "json", "dot", "report":
        path = getattr(asked, name)
        if path:
            with open(path, "a"):
                pass
    if asked.keep:
        asked.keep = os.path.abspath(asked.keep)
        Path(asked.keep).mkdir(parents=True, exist_ok=True)


def run_and_tell(asked: Namespace, path: str, suppressed: list) -> int:
    """Runs the program and tells. Returns the exit status."""
    with tempfile.TemporaryDirectory() as scratch:
        folder = asked.keep or scratch
        reports = Reports(asked, folder, suppressed)
        status = REFUSED
        try:
            program.check(path)
            status = run(asked, folder, path, reports)
        except (program.Refusal, proved.Refusal) as why:
            reports.refuse(str(why))
        except OSError as fault:
            reports.refuse(program.reason(fault))
    for suppression in suppressed:
        if not suppression.is_used and not asked.quiet:
            reports.say(f"record: nothing was left that {suppression.pattern} suppresses")
    if asked.json:
        with reports.written(asked.json):
            report_data.write_json(asked.json, reports.as_json, reports.refused)
    return reports.status(status)


def main() -> int:
    gc.disable()
    asked = options.parse(sys.argv[1:])
    try:
        if asked.flags:
            print(hook_headers.flags(built_library()))
            return 0
        path = program.find(asked.program)
        check_writable(asked)
        suppressed = suppressions.read(asked.suppress)
        if asked.proved:
            proved.refuse_unbuilt()
        return run_and_tell(asked, path, suppressed)
    except program.NotFound as why:
        say(f"record: {asked.program}: {why}")
        return 127
    except OSError as fault:
        say(f"record: refused: {program.reason(fault)}")
        return REFUSED
    except (hook_headers.Refusal, program.Refusal, proved.Refusal, suppressions.Refusal) as why:
        say(f"record: refused: {why}")
        return REFUSED
