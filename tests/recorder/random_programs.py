"""C++ programs from a seed, whose knots and members are known by how they are put together."""
import collections
import json
import random
import subprocess
import tempfile
from pathlib import Path

from tests.recorder.building import HUNG

# How a member of some kind is declared and filled.
KINDS = {
    "plain": ("std::shared_ptr<{t}> {m};", "{a}->{m} = {b};"),
    "optional": ("std::optional<std::shared_ptr<{t}>> {m};", "{a}->{m} = {b};"),
    "any": ("std::any {m};", "{a}->{m} = {b};"),
    "vector": ("std::vector<std::shared_ptr<{t}>> {m};", "{a}->{m}.push_back({b});"),
    "list": ("std::list<std::shared_ptr<{t}>> {m};", "{a}->{m}.push_back({b});"),
    "deque": ("std::deque<std::shared_ptr<{t}>> {m};", "{a}->{m}.push_back({b});"),
    "map": ("std::map<int, std::shared_ptr<{t}>> {m};", "{a}->{m}[{n}] = {b};"),
    "unordered_map": ("std::unordered_map<int, std::shared_ptr<{t}>> {m};", "{a}->{m}[{n}] = {b};"),
    "function": ("std::function<long()> {m};", "{a}->{m} = [it = {b}] {{ return it.use_count(); }};"),
    "unique_ptr": (
        "std::unique_ptr<std::shared_ptr<{t}>> {m};",
        "{a}->{m} = std::make_unique<std::shared_ptr<{t}>>({b});",
    ),
}
MANY = "vector", "list", "deque", "map", "unordered_map"
HEADERS = "any deque functional list map memory optional unordered_map vector".split()


class Program:
    """Classes with a member for each purpose, the lines of main, and the knots that these leave."""

    def __init__(self, seed):
        self.chance = random.Random(seed)
        self.lines, self.knots, self.types = [], [], collections.Counter()
        self.classes = {}
        self.made = 0
        for add in self.chance.choices([self.ring, self.tree, self.crossing, self.kept_ring], k=5):
            add()

    def new_class(self, members):
        """A class with so many members, each (its kind, the class it owns): filled in later by `owns`."""
        name = f"C{len(self.classes)}"
        self.classes[name] = {f"m{number}": None for number in range(members)}
        return name

    def make(self, name):
        self.made += 1
        new = self.chance.choice([f"std::make_shared<{name}>()", f"std::shared_ptr<{name}>(new {name})"])
        self.lines.append(f"auto o{self.made} = {new};")
        return self.made, name

    def owns(self, a, member, b, many=False):
        """An owner from an object to another; returns (from, to, label)."""
        (number, name), (to, target) = a, b
        if not self.classes[name][member]:
            kind = self.chance.choice(MANY if many else list(KINDS))
            self.classes[name][member] = kind, target
        kind = self.classes[name][member][0]
        fill = KINDS[kind][1].format(a=f"o{number}", b=f"o{to}", m=member, t=target, n=len(self.lines))
        self.lines.append(fill)
        return number, to, f"{name}::{member}"

    def knot(self, objects, ties, weaken):
        for _, name in objects:
            self.types[name] += 1
        self.knots.append(
            (sorted(name for _, name in objects), dict(collections.Counter(tie[2] for tie in ties)), weaken)
        )

    def ring_of(self, size):
        """Objects in a circle, each of a class of its own: each tie alone cuts it."""
        objects = [self.make(self.new_class(2)) for _ in range(size)]
        ties = [self.owns(objects[at], "m0", objects[(at + 1) % size]) for at in range(size)]
        return objects, ties

    def ring(self):
        objects, ties = self.ring_of(self.chance.randint(1, 4))
        self.knot(objects, ties, {(tie[2],) for tie in ties})

    def tree(self):
        """Items of one class with children and a parent: either member suffices."""
        name = self.new_class(2)
        objects, ties = [self.make(name)], []
        for _ in range(self.chance.randint(1, 6)):
            parent, child = self.chance.choice(objects), self.make(name)
            ties += [self.owns(parent, "m0", child, many=True), self.owns(child, "m1", parent)]
            objects.append(child)
        self.knot(objects, ties, {(f"{name}::m0",), (f"{name}::m1",)})

    def crossing(self):
        """Two circles through one object: one member of each is needed."""
        first, ties = self.ring_of(self.chance.randint(1, 3))
        rest = [self.make(self.new_class(2)) for _ in range(self.chance.randint(1, 2))]
        way = [first[0], *rest, first[0]]
        other = [self.owns(a, "m1", b) for a, b in zip(way, way[1:])]
        weaken = {tuple(sorted((a[2], b[2]))) for a in ties for b in other}
        self.knot(first + rest, ties + other, weaken)

    def kept_ring(self):
        """A circle that a static which is never freed keeps."""
        objects, _ = self.ring_of(self.chance.randint(1, 3))
        self.lines.append(f"static auto& kept{self.made} = *new auto(o{objects[0][0]});")
        self.lines.append(f"if (!kept{self.made}) return 1;")

    def declared(self, name, members):
        lines = [KINDS[kind[0]][0].format(t=kind[1], m=member) for member, kind in members.items() if kind]
        return f'struct {name} {{ {" ".join(lines)} }};\n'

    def text(self):
        parts = [f"#include <{header}>\n" for header in HEADERS]
        parts += [f"struct {name};\n" for name in self.classes]
        parts += [self.declared(*class_) for class_ in self.classes.items()]
        return "".join(parts) + "int main() {\n  " + "\n  ".join(self.lines) + "\n}\n"


def program(seed):
    """What has to be found, and the text of a program."""
    generated = Program(seed)
    return generated, generated.text()


def difference(wanted, record, built):
    """What `record` tells otherwise; '' where nothing."""
    with tempfile.TemporaryDirectory() as folder:
        to = Path(folder, "report")
        ran = subprocess.run([record, "--json", to, built], capture_output=True, text=True, timeout=HUNG)
        told = json.loads(to.read_text())["reports"][0]
    types = {object_["number"]: object_["type"] for object_ in told["objects"]}
    leaked = collections.Counter(
        object_["type"] for object_ in told["objects"] if object_["verdict"] == "leaked"
    )
    knots = [
        (
            sorted(types[number] for number in knot["objects"]),
            dict(collections.Counter(tie["member"] for tie in knot["ties"])),
            {tuple(sorted(labels)) for labels in knot["weaken"]},
        )
        for knot in told["knots"]
        if types and told["objects"][knot["objects"][0] - 1]["verdict"] == "leaked"
    ]
    status = 3 if wanted.knots else 0
    met = told["counts"]["blocks"] == told["counts"]["met"]
    same = leaked == wanted.types and sorted(map(str, wanted_knots(wanted.knots))) == sorted(
        map(str, wanted_knots(knots))
    )
    return "" if same and met and ran.returncode == status else f"{wanted.knots}\n{knots}\n{ran.stderr}"


def wanted_knots(knots):
    return [(objects, sorted(ties.items()), sorted(weaken)) for objects, ties, weaken in knots]
