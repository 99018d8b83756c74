"""The options of ./record, each by what it writes."""
import json
import os
import re
import subprocess
import tempfile
from pathlib import Path

from recorder import options, type_names
from tests.recorder.building import HUNG, PROGRAMS, ROOT, built, differences


OSTREAM = "std::basic_ostringstream<char>"


def record(*words, **how):
    return subprocess.run(
        [ROOT / "record", *words], capture_output=True, text=True, cwd=PROGRAMS, timeout=HUNG, **how
    )


def json_tells_all():
    with tempfile.TemporaryDirectory() as folder:
        ran = record("--json", f"{folder}/report", built(folder, "raw_pointer"))
        whole = json.loads(Path(folder, "report").read_text())
    (report,) = whole["reports"]
    verdicts = [
        (object_["type"], object_["verdict"], object_["reached_from"]) for object_ in report["objects"]
    ]
    nodes = [("Node", "reached", "last_seen")] * 2 + [("Node", "reached", "never_freed")]
    knots = [(knot["objects"], knot["weaken"], knot["reached"]) for knot in report["knots"]]
    wanted = [([1, 2], [["Node::next"]], True), ([3], [["Node::next"]], True)]
    counts = (report["left"], report["leaked"], report["counts"])
    return differences(
        status=(ran.returncode, 0),
        verdicts=(verdicts, nodes),
        knots=(knots, wanted),
        counts=(counts, (3, 0, {"blocks": 3, "met": 3})),
        version=(whole["version"], options.VERSION),
        stacks=([bool(object_["stack"] and object_["bytes"]) for object_ in report["objects"]], [True] * 3),
    )


def dot_and_keep():
    with tempfile.TemporaryDirectory() as folder:
        record("--dot", f"{folder}/graph.dot", "--keep", f"{folder}/kept", built(folder, "circle"))
        drawn = Path(folder, "graph.dot").read_text()
        kept = sorted(re.sub(r"\d+", "N", path.name) for path in Path(folder, "kept").iterdir())
        graph = next(Path(folder, "kept").glob("*.graph")).read_text()
    wanted = "digraph record {\nnode [style=filled, fillcolor=white];\n"
    wanted += 'o1 [label="1 Node", fillcolor=orange];\no2 [label="2 Node", fillcolor=orange];\n'
    wanted += 'o1 -> o2 [label=" Node::child", style=bold, color=red];\n'
    wanted += 'o2 -> o1 [label=" Node::parent", style=bold, color=red];\n}\n'
    text = "object 1 Node\nobject 2 Node\nowner 1 2 Node::child\nowner 2 1 Node::parent\n"
    return differences(
        drawn=(drawn, wanted),
        kept=(kept, ["record.N", "record.N.graph", "record.N.map"]),
        graph=(graph, text),
    )


def what_cannot_be_written():
    """It is refused before the program runs."""
    with tempfile.TemporaryDirectory() as folder:
        circle, found = built(folder, "circle"), {}
        for option in "--json", "--dot", "--keep":
            ran = record(option, f"{circle}/file", circle)
            found[option] = (ran.returncode, ran.stderr), (
                125,
                f"record: refused: {circle}/file: Not a directory\n",
            )
    return differences(**found)


def what_is_no_program():
    with tempfile.TemporaryDirectory() as folder:
        built(folder, "circle")
        Path(folder, "text").write_text("")
        found = {}
        for name, why in {
            "circle": "no such program; did you mean ./circle?",
            "./text": "it is not executable",
            "./none": "no such program",
            ".": "it is a folder",
        }.items():
            ran = subprocess.run([ROOT / "record", name], capture_output=True, text=True, cwd=folder)
            found[name] = (ran.returncode, ran.stderr), (127, f"record: {name}: {why}\n")
    return differences(**found)


def values_that_no_option_has():
    """They are refused in a line, after how it is used."""
    whys = {
        "--now=KILL": "argument --now: no program hears SIGKILL",
        "--now=STOP": "argument --now: no program hears SIGSTOP",
        "--now=NONE": "argument --now: invalid signal_number value: 'NONE'",
        "--frames=-3": "argument --frames: a number from 0 to 64 is wanted, and not -3",
        "--frames=1000": "argument --frames: a number from 0 to 64 is wanted, and not 1000",
        "--limit=0": "argument --limit: a number from 1 to 86400 is wanted, and not 0",
        "--pid=1": f"--pid: {options.OF_OTHERS['--pid']}",
        "--leak-check=full": f"--leak-check: {options.OF_OTHERS['--leak-check']}",
        "--exit=256": "argument --exit: a number from 0 to 255 is wanted, and not 256",
    }
    found = {}
    for word, why in whys.items():
        ran = record(word, "/bin/true")
        found[word] = (ran.returncode, ran.stderr.splitlines()[-1]), (2, f"record: error: {why}")
    return differences(**found)


def no_frames():
    with tempfile.TemporaryDirectory() as folder:
        ran = record("--frames", "0", built(folder, "circle"))
    return differences(leaked=(ran.stderr.splitlines()[1], "leaked 2 Node"))


def no_debug_information():
    """Members are told by byte, and places by function."""
    with tempfile.TemporaryDirectory() as folder:
        program = Path(folder, "circle")
        subprocess.run(["g++", "circle.cc", "-o", program], check=True, cwd=PROGRAMS)
        lines = record(program).stderr.splitlines()[1:7]
    wanted = [
        "leaked 2 Node, made in main",
        "knot 2 Node, tied by Node at byte 0 1, Node at byte 16 1",
        "weaken Node at byte 16",
        "weaken Node at byte 0",
        "record: each weaken line mends its knot by itself; take the first",
        "record: members are told by their names where the program is compiled with -g",
    ]
    return differences(lines=(lines, wanted))


def places_alone():
    """What -g1 lacks is told."""
    with tempfile.TemporaryDirectory() as folder:
        program = Path(folder, "circle")
        subprocess.run(["g++", "-g1", "circle.cc", "-o", program], check=True, cwd=PROGRAMS)
        lines = record(program).stderr.splitlines()
    wanted = "record: -g1 has places and no members: these are told by their names with -g"
    made = "leaked 1 Node, made at circle.cc:10 in main"
    return differences(lines=((lines[1], wanted in lines), (made, True)))


def streams_and_status():
    """The program's streams, arguments and exit status are its own."""
    text = "#include <iostream>\n"
    text += "int main(int n, char** a) { std::cout << std::cin.rdbuf() << a[n - 1]; return n; }"
    with tempfile.TemporaryDirectory() as folder:
        ran = record(built(folder, "echo", text), "--json", "last", input="given ")
    return differences(said=(ran.stdout, "given last"), status=(ran.returncode, 3))


def the_report_goes_where_it_is_wanted():
    """--report, --quiet, --exit and --github."""
    with tempfile.TemporaryDirectory() as folder:
        leaking, sound = built(folder, "circle"), built(folder, "weak_parent")
        ran = record("--report", f"{folder}/a report: one", "--exit", "7", leaking)
        written = Path(folder, "a report: one").read_text().splitlines()
        silent = record("--quiet", sound)
        noted = record("--github", leaking).stdout.splitlines()
    notes = [
        f"::error file=circle.cc,line={line}::leaked 1 Node, made at circle.cc:{line} in main"
        for line in (10, 11)
    ]
    return differences(
        report=(ran.stderr, ""),
        written=(written[1], "leaked 1 Node, made at circle.cc:10 in main"),
        exit=(ran.returncode, 7),
        quiet=((silent.stderr, silent.returncode), ("", 0)),
        notes=(noted, notes),
    )


def stacks():
    with tempfile.TemporaryDirectory() as folder:
        lines = record("--stack", built(folder, "tree")).stderr.splitlines()
    wanted = [
        "leaked 6 Item, made at tree.cc:14 in add",
        "  3 of them:",
        "  by add at tree.cc:14",
        "  by main at tree.cc:23",
        "  3 of them:",
        "  by add at tree.cc:14",
        "  by main at tree.cc:24",
        "leaked 1 Item, made at tree.cc:21 in main",
        "  by main at tree.cc:21",
    ]
    return differences(lines=(lines[1:10], wanted))


def options_in_the_environment():
    with tempfile.TemporaryDirectory() as folder:
        names = {**os.environ, "RECORDER_OPTIONS": f"--exit 9 --report '{folder}/a report'"}
        ran = record(built(folder, "circle"), env=names)
        written = Path(folder, "a report").read_text().splitlines()[0]
    first = "record: 2 objects that shared pointers own are left, 2 leaked"
    return differences(said=((ran.returncode, ran.stderr, written), (9, "", first)))


def names_of_types():
    """Without what templates of the library have where nothing is given."""
    names = {
        "std::map<int, A, std::less<int>, std::allocator<std::pair<int const, A> > >": "std::map<int, A>",
        "std::unique_ptr<A, std::default_delete<A> >": "std::unique_ptr<A>",
        "std::unordered_set<A, std::hash<A>, std::equal_to<A>, std::allocator<A> >": "std::unordered_set<A>",
        "std::set<A, std::less<void>, std::allocator<A> >": "std::set<A, std::less<void>>",
        "std::__cxx11::basic_ostringstream<char, std::char_traits<char>, std::allocator<char> >": OSTREAM,
        "Index<A, std::map<A, B, std::less<A> >, std::less<A> >": "Index<A, std::map<A, B>, std::less<A>>",
        "std::map<A, B, Later, std::allocator<std::pair<A const, B> > >": "std::map<A, B, Later>",
    }
    return differences(**{name: (type_names.short(name), wanted) for name, wanted in names.items()})


def what_is_undecided():
    """It is no leak, but where --strict is given, and so is what is reached."""
    with tempfile.TemporaryDirectory() as folder:
        program = Path(folder, "undecided")
        subprocess.run(["g++", "undecided.cc", "-s", "-o", program], check=True, cwd=PROGRAMS)
        reached = built(folder, "raw_pointer")
        found = [record(*words).returncode for words in ([program], ["--strict", program])]
        found += [record(*words).returncode for words in ([reached], ["--strict", reached])]
    return differences(status=(found, [0, 3, 0, 3]))


def the_page():
    """The example of docs/left.md, with the report that stands there."""
    page = (ROOT / "docs/left.md").read_text()
    source = ROOT / "examples/leaking_tree.cpp"
    wanted = re.search(r"```\n(record: 4 objects.*?)```", page, re.S)[1]
    code = re.search(r"```cpp\n(struct Item.*?)```", page, re.S)[1]
    with tempfile.TemporaryDirectory() as folder:
        command = ["g++", "-g", source.relative_to(ROOT), "-o", f"{folder}/leaking_tree"]
        subprocess.run(command, cwd=ROOT, check=True)
        ran = subprocess.run(
            [ROOT / "record", f"{folder}/leaking_tree"], cwd=ROOT, capture_output=True, text=True
        )
    return differences(
        report=(ran.stderr[: len(wanted)], wanted),
        code=(code in source.read_text(), True),
        status=(ran.returncode, 3),
    )


CHECKS = [
    the_page,
    json_tells_all,
    dot_and_keep,
    what_cannot_be_written,
    what_is_no_program,
    values_that_no_option_has,
    no_frames,
    no_debug_information,
    places_alone,
    streams_and_status,
    the_report_goes_where_it_is_wanted,
    stacks,
    options_in_the_environment,
    names_of_types,
    what_is_undecided,
]
