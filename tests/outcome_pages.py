"""Pages of outcomes in a browser: what they show of them, and where they go."""

import pathlib

from run_pages import Page, faults_of_acts, faults_of_addresses, faults_of_end, go, rows_of_svg, run

ROOT = pathlib.Path(__file__).resolve().parent.parent
# Scripts whose outcomes are looked at on a page.
SCRIPTS = ["docs/observer.sptr", "tests/scripts/orders_of_two_stores.script", "docs/pictures/lock.sptr"]
# What a page shows of outcomes: the lines of each, which of these it says to differ, which outcome is chosen,
# and the last lines.
OUTCOMES = """(() => {
  const links = [...document.querySelectorAll('#outcomes a')];
  return { outcomes: links.map((it) => [...it.children].map((line) => line.textContent)),
    bold: links.map((it) => [...it.querySelectorAll('b')].map((line) => line.textContent)),
    chosen: links.map((it) => it.getAttribute('aria-current')).indexOf('true') + 1,
    closing: document.getElementById('count').textContent };
})()"""


def outcomes_told(text):
    """The outcomes that `orders` tells, each as its lines, and the lines below them that a page has too."""
    outcomes, closing = [], []
    for line in text.splitlines()[:-1]:
        if line.startswith("outcome "):
            outcomes.append([line])
        elif line.startswith(("outcomes ", "differ ")):
            closing.append(line)
        else:
            outcomes[-1].append(line)
    return outcomes, closing


def differing(outcome, closing):
    """The lines of an outcome that stand in others otherwise, by the last lines."""
    places = closing[1].split(" ")[1:] if len(closing) > 1 else []
    for line in outcome[1:]:
        place = line.split(" ")[0]
        if (place if place[0].isdigit() else "left") in places:
            yield line


def followed(page, number):
    """What a page shows once the link of an outcome was followed."""
    page.browser.value(f"document.querySelectorAll('#outcomes a')[{number - 1}].click()")
    for _ in range(100):
        if page.shown()["link"] == f"#{number}":
            break
    return page.shown()


def faults_of_list(page, outcomes, closing):
    """What is wrong with the list of outcomes."""
    shown = page.browser.value(OUTCOMES)
    if (shown["outcomes"], shown["closing"]) != (outcomes, "; ".join(closing)):
        yield f"the outcomes are {shown}, by orders {outcomes} {closing}"
    if shown["bold"] != [list(differing(it, closing)) for it in outcomes]:
        yield f"what differs is {shown['bold']}"


def faults_of_outcomes(browser, folder, program, script):
    """What is wrong with the page of a script's outcomes."""
    before = len(browser.faults)
    outcomes, closing = outcomes_told(run(program, "orders", script))
    text = run(program, "orders", "--page", script)
    yield from faults_of_addresses(text)
    page = Page(browser, folder, text)
    yield from faults_of_list(page, outcomes, closing)
    for number, (head, *_) in enumerate(outcomes, 1):
        turns = [f"--turns={it}" for it in head.split(" ")[3:]]
        came = followed(page, number)
        if (came["link"], page.browser.value(OUTCOMES)["chosen"]) != (f"#{number}", number):
            yield f"the link of outcome {number} leads to {came['link']}"
        rows = rows_of_svg(run(program, "draw", *turns, script))
        yield from (f"outcome {number}: {it}" for it in faults_of_acts(page, rows, True))
        yield from (f"outcome {number}: {it}" for it in faults_of_end(page, program, turns, script))
    yield from browser.faults[before:]


# How many acts the runs of docs/observer.sptr have, and on its page ways, with the outcome and the act at
# which it is then. A link that names no act leads to the first line.
ACTS = [10, 10, 11, 11]
WAYS = [
    ("link", "", 1, 5),
    ("link", "#2.7", 2, 7),
    ("press", "o", 3, 7),
    ("press", "ArrowRight", 3, 8),
    ("press", "O", 2, 8),
    ("click", "outcome-on", 3, 8),
    ("click", "outcome-back", 2, 8),
    ("press", "O", 1, 8),
    ("press", "O", 1, 8),
    ("slide", "3", 1, 3),
    ("link", "#4.99", 4, 0),
    ("press", "End", 4, 11),
    ("link", "#3", 3, 6),
    ("link", "#9.2", 1, 2),
]


def faults_of_ways(browser, folder, program):
    """What is wrong with where a page of outcomes goes."""
    page = Page(browser, folder, run(program, "orders", "--page", str(ROOT / SCRIPTS[0])))
    for way, word, outcome, act in WAYS:
        shown = go(page, way, word)
        came = shown["place"], shown["slider"], shown["link"]
        link = word if way == "link" else f"#{outcome}.{act}"
        if came != (f"outcome {outcome}, act {act} of {ACTS[outcome - 1]}", act, link):
            yield f"{way} {word!r} comes to {came}, not to act {act} of outcome {outcome}"


def faults_of_long_run(browser, folder, program):
    """What is wrong with a page of a run that has more acts than a page shows."""
    script = pathlib.Path(folder, "long.sptr")
    script.write_text("make a 1\n" + "count a\n" * 2000)
    page = Page(browser, folder, run(program, "orders", "--page", str(script)))
    shown = page.press("End")
    if shown["place"] != "outcome 1, act 2000 of 2000" or "goes on" not in shown["left"]:
        yield f"at its end it is at {shown['place']}, and says {shown['left']!r}"


def checks(browser, folder, program):
    """Each check's name, and what it finds."""
    yield "where a page of outcomes goes", faults_of_ways(browser, folder, program)
    yield "a page of a long run", faults_of_long_run(browser, folder, program)
    for script in SCRIPTS:
        found = faults_of_outcomes(browser, folder, program, str(ROOT / script))
        yield f"the outcomes of {script}", found
