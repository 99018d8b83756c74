"""The graph as Graphviz draws it, in the manner of `sptr left --dot`."""
from recorder import owner_search
from recorder.type_names import short
from recorder.verdicts import Findings

MOST_CUTS = 2000  # objects up to which it is shown which owner alone cuts a knot


def quoted(text):
    return '"' + text.replace("\\", "\\\\").replace('"', '\\"') + '"'


def color(findings, number, in_knots):
    if number in findings.reached:
        return "lightyellow"
    if number not in findings.answer.leaked:
        return "white"
    return "orange" if number in in_knots else "grey"


def arrow(begin, end, label, style, color=""):
    color = f", color={color}" if color else ""
    return f'{begin} -> {end} [label={quoted(" " + label)}, style={style}{color}];'


def dot(findings: Findings) -> str:
    """Objects are ellipses, owners full lines, weak pointers dashed, what is no object a box; leaked knots
    are orange, what else leaks is grey, what raw pointers reach is yellow; what ties a knot is red, and bold
    where it alone cuts it."""
    in_knots = {number for knot in findings.answer.knots for number in knot.objects}
    ties = {tie for knot in findings.answer.knots for tie in knot.ties}
    knots = findings.answer.knots if len(findings.blocks) <= MOST_CUTS else []
    cuts = {cut for knot in knots if not knot.is_owned for cut in owner_search.cuts(knot.objects, knot.ties)}
    lines = ["digraph record {", "node [style=filled, fillcolor=white];"]
    for number, block in enumerate(findings.blocks, 1):
        label = quoted(f"{number} {short(block.making.name)}")
        lines.append(f"o{number} [label={label}, fillcolor={color(findings, number, in_knots)}];")
    roots = {
        label: f"r{at}"
        for at, label in enumerate(dict.fromkeys(label for _, label in findings.graph.roots), 1)
    }
    lines += [f"{name} [label={quoted(label)}, shape=box];" for label, name in roots.items()]
    lines += [arrow(roots[label], f"o{to}", "", "solid") for to, label in findings.graph.roots]
    for owner in findings.graph.owners:
        style = "bold" if owner in cuts else "solid"
        lines.append(arrow(f"o{owner[0]}", f"o{owner[1]}", owner[2], style, "red" if owner in ties else ""))
    lines += [arrow(f"o{a}", f"o{b}", label, "dashed") for a, b, label in findings.graph.weaks]
    return "\n".join([*lines, "}"]) + "\n"
