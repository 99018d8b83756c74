#!/usr/bin/env python3
"""Draws the table of a run: for each test the time of a call, as its ratio to libstdc++, by 1 thread and by
4.

usage: bench/plot.py TEXT > bench/ratios.svg

TEXT is a file with what bench/run.sh printed, or bench/rows.md. The day is the last before the table."""
import math
import re
import sys
from html import escape
from pathlib import Path

HEAD = "| test | peer |"
ROW = re.compile(r"^\| ([^|]+) \| ([^|]+) \| ([^|]+) \| ([^|]+) \| ([^|]+) \|$", re.MULTILINE)
RATIO = re.compile(r"\(([\d.]+)\)")
DAY = re.compile(r"\d{4}-\d\d-\d\d")
# By the peer's name: its class in the style, and its mark.
MARKS = {
    "this runtime": ("own", "disc"),
    "this runtime, a value": ("own", "square"),
    "this runtime, four new fields": ("own", "triangle"),
    "this runtime, cached": ("own", "ring"),
    "this runtime, structures": ("own", "cross"),
    "this runtime, a trie": ("own", "diamond"),
    "libstdc++, by a version": ("version", "plus"),
    "libstdc++, a mutex": ("version", "square"),
    "Boost shared_ptr": ("boost", "square"),
    "Rust Arc": ("arc", "triangle"),
    "Rust arc-swap": ("swap", "diamond"),
    "Rust arc-swap, guard": ("swap", "ring"),
    "Rust arc-swap, Cache": ("swap", "cross"),
}
SHAPES = {
    "disc": '<circle r="4.5"/>',
    "ring": '<circle r="4" class="line"/>',
    "plus": '<path d="M-5 0H5M0 -5V5" class="line"/>',
    "cross": '<path d="M-4 -4L4 4M-4 4L4 -4" class="line"/>',
    "square": '<path d="M-3.5 -3.5H3.5V3.5H-3.5Z"/>',
    "triangle": '<path d="M0 -4.5L4.5 3.5H-4.5Z"/>',
    "diamond": '<path d="M0 -5L5 0L0 5L-5 0Z"/>',
}
STYLE = """
text { font: 12px sans-serif; fill: #1f2328; }
.title { font-weight: bold; }
.small { font-size: 11px; fill: #59636e; }
.page { fill: #ffffff; stroke: #d1d9e0; }
.band { fill: #f3f5f7; }
.grid { stroke: #d1d9e0; }
.base { stroke: #59636e; stroke-width: 1.5; }
.own { fill: #d55e00; stroke: #d55e00; }
.version { fill: #59636e; stroke: #59636e; }
.boost { fill: #0072b2; stroke: #0072b2; }
.arc { fill: #009e73; stroke: #009e73; }
.swap { fill: #a0569b; stroke: #a0569b; }
.line { fill: none; stroke-width: 1.8; }
@media (prefers-color-scheme: dark) {
  text { fill: #e6edf3; }
  .small { fill: #9198a1; }
  .page { fill: #0d1117; stroke: #3d444d; }
  .band { fill: #161b22; }
  .grid { stroke: #3d444d; }
  .base { stroke: #9198a1; }
  .own { fill: #ff8a3d; stroke: #ff8a3d; }
  .version { fill: #9198a1; stroke: #9198a1; }
  .boost { fill: #58b0ec; stroke: #58b0ec; }
  .arc { fill: #3fc79a; stroke: #3fc79a; }
  .swap { fill: #d896d3; stroke: #d896d3; }
  .line { fill: none; }
}
"""
LEFT, PANEL, GAP, STEP, TOP = 310, 270, 44, 24, 148
TICKS = [0.125, 0.25, 0.5, 1, 2, 4, 8]


def ratios(text):
    """By test and peer: the ratios by 1 and by 4 threads, None where there is none."""
    found = {}
    for test, peer, one, _, four in ROW.findall(text):
        numbers = [RATIO.search(it) for it in (one, four)]
        if peer in MARKS and any(numbers):
            found.setdefault(test, {})[peer] = [it and float(it[1]) for it in numbers]
    return found


def across(panel, ratio):
    """How far to the right a ratio stands; what is beyond the scale stands at its end."""
    low, high = math.log(TICKS[0]), math.log(TICKS[-1])
    share = (math.log(ratio) - low) / (high - low)
    return LEFT + panel * (PANEL + GAP) + PANEL * min(max(share, 0), 1.02)


def mark(peer, x, y):
    color, shape = MARKS[peer]
    return f'<g class="{color}" transform="translate({x:.1f} {y})">{SHAPES[shape]}</g>'


def words(x, y, text, names="", anchor="start"):
    return f'<text x="{x:.1f}" y="{y}" class="{names}" text-anchor="{anchor}">{escape(text)}</text>'


def scale(panel, title, bottom):
    """A panel's title and its lines, that of libstdc++ the strongest."""
    yield words(LEFT + panel * (PANEL + GAP) + PANEL / 2, TOP - 34, title, "title", "middle")
    for tick in TICKS:
        x, kind = across(panel, tick), "base" if tick == 1 else "grid"
        yield f'<path class="{kind}" d="M{x:.1f} {TOP - 12}V{bottom}"/>'
        yield words(x, TOP - 17, f"{tick:g}", "small", "middle")


def legend(peers):
    places = [(LEFT + 190 * (at % 3), 34 + 18 * (at // 3)) for at in range(len(peers))]
    for peer, (x, y) in zip(peers, places):
        yield mark(peer, x, y - 4)
        yield words(x + 10, y, peer)


def row_of(at):
    return TOP + STEP * at + STEP / 2


def names(found):
    """The tests' names, each second one on a band."""
    for at, test in enumerate(found):
        if at % 2 == 0:
            y = row_of(at) - STEP / 2
            yield f'<rect class="band" x="8" y="{y}" width="{width() - 16}" height="{STEP}"/>'
        yield words(LEFT - 14, row_of(at) + 4, test, anchor="end")


def marks(found):
    """Each ratio, those of this runtime above the others."""
    for at, peers in enumerate(found.values()):
        for panel in (0, 1):
            for peer in reversed([it for it in MARKS if it in peers]):
                if ratio := peers[peer][panel]:
                    yield mark(peer, across(panel, ratio), row_of(at))


def width():
    return LEFT + 2 * PANEL + GAP + 30


def note(found):
    """What is said of the ratios that the scale hasn't."""
    every = [it for peers in found.values() for both in peers.values() for it in both if it]
    below, beyond = [it for it in every if it < TICKS[0]], [it for it in every if it > TICKS[-1]]
    said = [f"at its left end stand {len(below)}, down to {min(below):.4f}"] if below else []
    said += [f"at its right end stand {len(beyond)}, up to {max(beyond):.0f}"] if beyond else []
    return f"Beyond the scale: {'; '.join(said)}." if said else ""


def picture(text):
    found = ratios(text)
    day = DAY.findall(text[: text.index(HEAD)])[-1]
    bottom = TOP + STEP * len(found)
    size = f'width="{width()}" height="{bottom + 34}"'
    yield f'<svg xmlns="http://www.w3.org/2000/svg" viewBox="0 0 {width()} {bottom + 34}" {size}>'
    yield f"<style>{STYLE}</style>"
    yield f'<rect class="page" x="0.5" y="0.5" width="{width() - 1}" height="{bottom + 33}" rx="6"/>'
    yield words(14, 34, "Time of a call, libstdc++ = 1", "title")
    yield words(14, 52, f"measured on {day}; further left is faster", "small")
    yield from legend([it for it in MARKS if any(it in peers for peers in found.values())])
    yield from names(found)
    yield from scale(0, "1 thread", bottom)
    yield from scale(1, "4 threads", bottom)
    yield from marks(found)
    yield words(14, bottom + 22, note(found), "small")
    yield "</svg>"


if __name__ == "__main__":
    if len(sys.argv) != 2:
        sys.exit(__doc__)
    page = Path(sys.argv[1]).read_text()
    if HEAD not in page:
        sys.exit(f"plot.py: {sys.argv[1]} has no table of a run")
    print("\n".join(picture(page)))
