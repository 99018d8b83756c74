"""The report in words, and the same for other programs."""
import collections
import re
import shutil
from collections.abc import Iterator

from recorder import mending, owner_graph, verdicts
from recorder.type_names import declared_type, short
from recorder.verdicts import Findings

MOST_PAIRS = 6
MOST_CHANGES = 3
# Types whose members have no names of their own, or that debug information calls otherwise.
UNNAMED = re.compile(r"^std::|lambda|\$_\d")
UNSEEN = {"static": "static memory", "shared": "memory that is shared with other processes"}


def counted(counter):
    return ", ".join(f"{count} {what}" for what, count in counter.most_common())


def kind_text(kind):
    name, made = kind
    return f"{name}, made {made}" if made else name


def stack_lines(findings, numbers, wanted):
    """Of objects of one kind: by which functions they were made, the most often first."""
    stacks = (
        collections.Counter(findings.blocks[number - 1].making.stack for number in numbers) if wanted else {}
    )
    for stack, count in stacks.most_common() if wanted else ():
        if len(stacks) > 1:
            yield f"  {count} of them:"
        yield from (f"  by {frame}" for frame in stack)


def by_kind(findings, numbers, more=None):
    """Objects by their kind, and by what `more` says of them, the most first."""
    by_making = collections.defaultdict(list)
    for number in sorted(numbers):
        by_making[findings.blocks[number - 1].making, more[number] if more else ""].append(number)
    found = collections.defaultdict(list)
    for (making, said), of_it in by_making.items():
        found[verdicts.kind_of(making), said] += of_it
    return sorted(((kind, sorted(of_it)) for kind, of_it in found.items()), key=lambda pair: -len(pair[1]))


def leaked_lines(findings, with_stack):
    lost = {to: label for to, label in findings.graph.lost if to in findings.alarming}
    for (kind, _), numbers in by_kind(findings, findings.alarming - set(lost)):
        yield f"leaked {len(numbers)} {kind_text(kind)}"
        yield from stack_lines(findings, numbers, with_stack)
    for (kind, label), numbers in by_kind(findings, lost, lost):
        yield f"lost {len(numbers)} {kind_text(kind)}, by an owner in {label}"
        yield from stack_lines(findings, numbers, with_stack)


def undecided_lines(findings, with_stack):
    for (kind, _), numbers in by_kind(findings, findings.undecided):
        advice = "compile with -g, or with the flags of ./record --flags"
        yield f"undecided {len(numbers)} {kind_text(kind)}: {advice}"
        yield from stack_lines(findings, numbers, with_stack)


def reached_lines(findings):
    reached = findings.reached_and_told
    for (kind, label), numbers in by_kind(findings, reached, reached):
        yield f"reached {len(numbers)} {kind_text(kind)}, by a raw pointer from {label}"


def suppressed_lines(findings):
    for (kind, reason), numbers in by_kind(findings, findings.suppressed, findings.suppressed):
        yield f"suppressed {len(numbers)} {kind_text(kind)}: {reason}"


def grown_lines(before, now):
    """Of which kinds there are more objects than at the snapshot before."""
    counts = [
        collections.Counter(verdicts.kind_of(block.making) for block in findings.blocks)
        for findings in (before, now)
    ]
    for kind, count in (counts[1] - counts[0]).most_common():
        yield f"grown {count} {kind_text(kind)}"


def annotations(findings: Findings) -> Iterator[str]:
    """Commands to GitHub, which shows them at their lines."""
    lost = {to: label for to, label in findings.graph.lost if to in findings.alarming}
    for (kind, label), numbers in by_kind(
        findings, findings.alarming, {number: lost.get(number, "") for number in findings.alarming}
    ):
        place = re.match(r"at (.*):(\d+) in ", kind[1])
        where = f" file={place[1]},line={place[2]}" if place else ""
        text = (
            f"lost {len(numbers)} {kind_text(kind)}, by an owner in {label}"
            if label
            else f"leaked {len(numbers)} {kind_text(kind)}"
        )
        yield f"::error{where}::{text}"


def change_text(way):
    """All that is to be weak, together."""
    more = [f"{len(way) - MOST_CHANGES} more"] if len(way) > MOST_CHANGES else []
    return " and ".join([*way[:MOST_CHANGES], *more])


def weaken_lines(findings, knot):
    if knot.is_owned:
        return ["weaken the knot that owns this one"]
    ways = mending.by_change(knot, findings.graph.changes)
    lines = [f"weaken {change_text(way)}" for way in ways[:MOST_PAIRS]]
    if len(ways) > MOST_PAIRS:
        lines.append(f"weaken or one of {len(ways) - MOST_PAIRS} more pairs")
    return lines or ["weaken more than two members: no single one suffices, and no two"]


def knot_texts(findings):
    """The lines of each knot, equal ones once, with how many there are."""
    texts = collections.Counter()
    for knot, count in findings.alarming_knots:
        types = collections.Counter(findings.kind(number)[0] for number in knot.objects)
        ties = ", ".join(f"{label} {count}" for label, count in owner_graph.tied_by(knot).most_common())
        condition = f'if {" and ".join(knot.conditions)} owns it: ' if knot.conditions else ""
        texts[f"knot {condition}{counted(types)}, tied by {ties}", *weaken_lines(findings, knot)] += count
    for (first, *rest), count in texts.items():
        yield from [first if count == 1 else f"{first}, {count} times", *rest]


def kept_by_unknown(findings):
    """How many objects are kept by what nobody points to or was not found, alone."""
    unknown = {"an owner that was not found", "heap memory that nothing points to"}
    by_unknown = {to for to, label in findings.graph.roots if label in unknown}
    return len(by_unknown - {to for to, label in findings.graph.roots if label not in unknown})


def missing_tools(findings):
    """What can't be told for want of a program."""
    if not findings.record.blocks:
        return
    if not shutil.which("gdb"):
        yield "record: without gdb members and statics have no names: apt-get install gdb"
    if not all(map(shutil.which, ("readelf", "addr2line", "c++filt"))):
        what = "places have no names, and programs of some kinds are not refused"
        yield f"record: without binutils {what}: apt-get install binutils"


def advice_lines(findings):
    knots = [knot for knot, _ in findings.alarming_knots if not knot.is_owned]
    if any(len(mending.by_change(knot, findings.graph.changes)) > 1 for knot in knots):
        yield "record: each weaken line mends its knot by itself; take the first"
    yield from missing_tools(findings)
    unnamed = {
        tie for knot in knots for tie in knot.ties if " at byte " in tie[2] and not UNNAMED.search(tie[2])
    }
    makings = [findings.blocks[tie[0] - 1].making for tie in unnamed]
    if not shutil.which("gdb"):
        return
    if any(not making.made.startswith("at ") for making in makings):
        yield "record: members are told by their names where the program is compiled with -g"
    if not all(making.has_types for making in makings):
        yield "record: -g1 has places and no members: these are told by their names with -g"


def trust_line(findings):
    blocks_met = f"{findings.met} of {len(findings.record.blocks)} control blocks"
    met = f"the pointers found explain the counts of {blocks_met}"
    if findings.compared == "the same":
        proved = "the answer is that of the proved ./sptr owners, and the reading of memory is not proved"
        return f"record: {met}; {proved}"
    if findings.compared:
        own = "this is its own search. The proved ./sptr owners says otherwise"
        return f"record: {met}; {own}: {findings.compared}"
    return f"record: {met}; neither the reading of memory nor the answer is proved"


def lines(findings: Findings, with_stack: bool = False, before: Findings | None = None) -> list[str]:
    count = len(findings.graph.objects)
    first = f'record: {count} object{"s"[:count != 1]} that shared pointers own '
    first += f'{"is" if count == 1 else "are"} left, {len(findings.alarming)} leaked'
    if findings.undecided:
        first += f", {len(findings.undecided)} undecided"
    if findings.reached_and_told:
        first += f", {len(findings.reached_and_told)} that raw pointers reach"
    found = [
        first,
        *leaked_lines(findings, with_stack),
        *knot_texts(findings),
        *undecided_lines(findings, with_stack),
    ]
    found += [
        *reached_lines(findings),
        *suppressed_lines(findings),
        *(grown_lines(before, findings) if before else ()),
    ]
    return [*found, *advice_lines(findings), *doubt_lines(findings), trust_line(findings)]


def blocks(count):
    return f'{count} control block{"s"[: count != 1]}'


def doubt_lines(findings):
    unknown, record = kept_by_unknown(findings), findings.record
    if findings.answer.lost & findings.alarming:
        unseen = "a pointer that was put together, as by exclusive or, is not seen"
        yield f"record: {unseen}: it may lead to what is lost"
    if findings.reached_and_told:
        yield "record: only raw pointers lead to what is reached; whether one of them owns it can't be told"
    if unknown:
        yield f"record: {unknown} kept by owners whose place is not known"
    if record.untyped:
        why = "as they have no RTTI; see --flags"
        yield f"record: {record.untyped} control blocks tell no type and are left out, {why}"
    for count, path in record.closed:
        yield f"record: not looked at: {blocks(count)} of {path}, which was closed"
    for where, count, kind, control in record.unseen:
        name = short(declared_type(kind, record.plain[control]))
        yield f"record: not looked at: {count} {name} in {UNSEEN[where]}"
    if record.mapped_bytes:
        size = record.mapped_bytes >> 20
        yield f"record: not looked at: {size} MB of memory that the program mapped itself"
    if not record.blocks and not any("libstdc++" in path for _, path in record.modules):
        yield "record: it loads no libstdc++; what it starts is told with --children"


def map_text(findings: Findings) -> str:
    """What each number of the graph is in the program: its type, the place of its making, its control
    block."""
    lines = (
        f"{number} {kind_text(findings.kind(number))}, at {block.at:#x}"
        for number, block in enumerate(findings.blocks, 1)
    )
    return "".join(f"{line}\n" for line in lines)
