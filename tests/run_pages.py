"""Pages of runs in a browser: what they show, and what is wrong with what they show act by act."""

import pathlib
import re
import subprocess

BLOCK = re.compile(r"block (\d+) owners (\d+) weaks (\d+)")
HOLDER = re.compile(r"  (owner|weak) in (\S+)")
COUNT = re.compile(r"(\d+) w(\d+)")
SVG = "http://www.w3.org/2000/svg"
# What a page shows after an act.
SHOWN = """(() => {
  const rows = [...document.querySelectorAll('#objects tr')].map(
    (row) => [...row.children].map((cell) => cell.textContent));
  const lines = [...document.querySelectorAll('#graph path[data-from]')].map(
    (it) => [it.dataset.from, it.dataset.to, it.getAttribute('class')]);
  const turn = document.querySelector('#columns .turn');
  return { place: document.getElementById('place').textContent,
    told: document.getElementById('told').textContent, rows, lines,
    turn: turn ? turn.dataset.place : '', link: location.hash,
    slider: Number(document.getElementById('slider').value),
    width: document.documentElement.scrollWidth,
    left: document.getElementById('left').textContent };
})()"""


def run(program, *words):
    """What a command writes."""
    return subprocess.run([program, *words], capture_output=True, timeout=300, check=False).stdout.decode()


class Page:
    """A page in a browser."""

    def __init__(self, browser, folder, text):
        self.browser = browser
        self.file = pathlib.Path(folder, "page.html")
        self.file.write_text(text)
        self.open("")

    def open(self, link):
        self.browser.open(f"{self.file.as_uri()}{link}")

    def shown(self):
        return self.browser.value(SHOWN)

    def press(self, key):
        self.browser.press(key)
        return self.shown()

    def click(self, name):
        self.browser.value(f"document.getElementById('{name}').click()")
        return self.shown()


def counts_shown(shown):
    """The counts of the objects of a page, by their blocks."""
    return {int(block): (int(owners), int(weaks)) for block, owners, weaks, _ in shown["rows"]}


def pointing(shown):
    """How many owners and weak pointers are drawn to each block."""
    ways = {}
    for _, to, kind in shown["lines"]:
        owners, weaks = ways.get(int(to), (0, 0))
        ways[int(to)] = (owners + (kind == "owner"), weaks + (kind == "weak"))
    return ways


def rows_of_svg(text):
    """The same of an SVG."""
    rows = []
    for kind, words in re.findall(r'<text class="(\w+)"[^>]*>([^<]*)</text>', text):
        if kind == "statement":
            rows.append((words, [], []))
        elif kind == "line":
            rows[-1][1].append(words)
        elif kind == "count":
            rows[-1][2].append(COUNT.fullmatch(words).groups())
    return [(statement, told, sorted(counts)) for statement, told, counts in rows]


def changed(before, after):
    """The counts that changed from one page to the next, a vacant block's as none."""
    blocks = {*before, *after}
    now = [after.get(it, (0, 0)) for it in blocks if after.get(it) != before.get(it)]
    return sorted((str(owners), str(weaks)) for owners, weaks in now)


def is_told(shown, told):
    """Whether the counts that changed are those that are told. A block whose object ends is told to have
    none, and once more when it is vacant; on a page it is gone by the first."""
    none = ("0", "0")
    some = [it for it in shown if it != none], [it for it in told if it != none]
    return some[0] == some[1] and shown.count(none) <= told.count(none)


def faults_of_acts(page, rows, is_whole):
    """What is wrong with what a page shows act by act."""
    shown = page.press("Home")
    if is_whole and shown["rows"]:
        yield f"there are objects before the first act: {shown['rows']}"
    for number, (statement, told, counts) in enumerate(rows, 1):
        before = counts_shown(shown)
        place = statement.split(" ")[0]
        if is_whole and shown["turn"] != place:
            yield f"before act {number} the next is marked at {shown['turn']}, not {place}"
        shown = page.press("ArrowRight") if is_whole or number > 1 else shown
        if shown["told"].split("\n") != (told or [""]):
            yield f"act {number} tells {shown['told']!r}, not {told}"
        if is_whole and not is_told(changed(before, counts_shown(shown)), counts):
            yield f"by act {number} {changed(before, counts_shown(shown))} changed, not {counts}"
        if is_whole and pointing(shown) != counts_shown(shown):
            yield f"after act {number} {pointing(shown)} point, {counts_shown(shown)} are counted"


def faults_of_addresses(text):
    """What is wrong with the addresses that a page names."""
    if "http" in text.replace(SVG, ""):
        yield "it names another address"


def held_in_cells(text):
    """What cells hold, as `left` tells it."""
    block = 0
    for line in text.splitlines():
        if BLOCK.match(line):
            block = BLOCK.match(line).group(1)
        elif HOLDER.fullmatch(line):
            kind, cell = HOLDER.fullmatch(line).groups()
            yield cell, block, kind


def faults_of_end(page, program, words, script):
    """What is wrong with what a page shows at the end of a whole run."""
    shown = page.press("End")
    told = run(program, "step", *words, script).splitlines()
    census = {
        int(b): (int(o), int(w)) for b, o, w in (it.groups() for it in map(BLOCK.fullmatch, told) if it)
    }
    if counts_shown(shown) != census:
        yield f"at the end {counts_shown(shown)} are counted, by step {census}"
    cells = sorted(held_in_cells(run(program, "left", *words, script)))
    if sorted(map(tuple, shown["lines"])) != cells:
        yield f"at the end {shown['lines']} are held, by left {cells}"
    if not shown["left"].startswith(told[-1]):
        yield f"the last line is {shown['left']}, by step {told[-1]}"
    all_lines = "[...document.querySelectorAll('#lines li')].map((it) => it.textContent)"
    lines = page.browser.value(all_lines)
    if lines != [it for it in told[:-1] if not BLOCK.fullmatch(it)]:
        yield f"the lines told are {lines}"


def go(page, way, word):
    """Goes on a page as a reader would."""
    if way == "press":
        return page.press(word)
    if way == "click":
        return page.click(word)
    if way == "link":
        page.open(word)
        return page.shown()
    slider = "document.getElementById('slider')"
    page.browser.value(f"{slider}.value = {word}; {slider}.dispatchEvent(new Event('input'))")
    return page.shown()
