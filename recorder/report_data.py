"""The report for other programs."""
import json

from recorder import mending
from recorder.options import VERSION
from recorder.report import doubt_lines
from recorder.type_names import short
from recorder.verdicts import Findings


def objects_as_json(findings):
    def verdict(number):
        for name, of in (
            ("reached", findings.reached),
            ("undecided", findings.undecided),
            ("lost", findings.answer.lost),
        ):
            if number in of:
                return name
        return findings.answer.verdicts[number]

    return [
        {
            "number": number,
            "type": short(block.making.name),
            "made": block.making.made,
            "stack": block.making.stack,
            "bytes": block.making.size,
            "verdict": verdict(number),
            "reached_from": findings.reached.get(number),
            "suppressed": findings.suppressed.get(number),
            "owners": block.uses,
            "weaks": block.weaks - 1,
        }
        for number, block in enumerate(findings.blocks, 1)
    ]


def handles_as_json(handles):
    return [{"from": a, "to": b, "member": label} for a, b, label in handles]


def knots_as_json(findings):
    return [
        {
            "objects": knot.objects,
            "ties": handles_as_json(knot.ties),
            "weaken": [list(labels) for labels in mending.by_label(knot)],
            "change": [list(way) for way in mending.by_change(knot, findings.graph.changes)],
            "owned_by_another": knot.is_owned,
            "reached": knot.objects[0] in findings.reached,
            "if_owning": list(knot.conditions),
        }
        for knot in [*findings.answer.knots, *findings.answer.perhaps]
    ]


def as_json(findings: Findings) -> dict:
    """All of a report as plain data."""
    return {
        "when": findings.record.when,
        "how": findings.record.how,
        "left": len(findings.blocks),
        "leaked": len(findings.alarming),
        "leaked_bytes": sum(findings.blocks[number - 1].making.size for number in findings.alarming),
        "undecided": len(findings.undecided),
        "counts": {"blocks": len(findings.record.blocks), "met": findings.met},
        "notes": [line.removeprefix("record: ") for line in doubt_lines(findings)],
        "objects": objects_as_json(findings),
        "owners": handles_as_json(findings.graph.owners),
        "weak": handles_as_json(findings.graph.weaks),
        "roots": [{"to": to, "from": label} for to, label in findings.graph.roots],
        "knots": knots_as_json(findings),
    }


def write_json(path: str, reports: list[dict], refused: list[str]):
    with open(path, "w") as file:
        json.dump({"version": VERSION, "reports": reports, "refused": refused}, file, indent=1)
        file.write("\n")
