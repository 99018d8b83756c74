#!/usr/bin/env python3
"""Worked scripts of many lines, made by a rule when they run; their answers are made of the rule's words, not
by a program.

usage: tests/large_scripts.py FOLDER     writes them to a folder as files, as tests/scripts has the others
"""
import pathlib
import sys

STATEMENTS = 65_536  # the most that a script may have
BLOCKS = 4_095  # those of a script of version 1


def lines(each):
    return "".join(f"{it}\n" for it in each)


def case(words, script, stdout="", stderr="", status=0, **others):
    """The files of a case, by how their names end."""
    answer = {"stdout": stdout, "stderr": stderr, "status": f"{status}\n"}
    return {"args": lines(words), "script": script, **answer, **others}


def counted(statement, count, head=""):
    """A script of one statement so many times, which `check` counts or refuses for the first line that is too
    many."""
    if count <= STATEMENTS:
        return case(["check"], head + count * statement, stdout=f"ok threads 1 statements {count}\n")
    line = head.count("\n") + STATEMENTS + 1
    told = f"refused 10: line {line}: too many statements\n"
    return case(["check"], head + count * statement, stderr=told, status=1)


def left(blocks, made):
    """What is told of objects that are left, with one owner each."""
    told = [f"block {block} owners 1 weaks 0" for block in blocks]
    return lines([*told, f"made {made} ended {made - len(blocks)} left {len(blocks)}"])


def chain(make):
    """Objects one after another, as many as there are blocks, each of which owns the one before; `a` owns the
    last."""
    links = (f'{make("b", number)}\nstore b.first a\ncopy a b\n' for number in range(1, BLOCKS))
    return f'{make("a", 0)}\n{"".join(links)}'


def chain_of_all_blocks():
    """At the thread's end the last object ends, and then each that it owned, down to the first."""
    ends = [f"1.end end {number} 0 0 0" for number in reversed(range(BLOCKS))]
    totals = f"made {BLOCKS} ended {BLOCKS} left 0"
    return case(["step"], chain(lambda name, number: f"make {name} {number}"), lines([*ends, totals]))


def last_block_has_a_place():
    """The last object lies in the last block, and an alias of its last field says so."""
    script = chain(lambda name, _: f"make {name}") + "alias c a 3\nplace c\n"
    place = f"1.{script.count(chr(10))} place {BLOCKS}.3"
    ends = BLOCKS * ["1.end end 0 0 0 0"]
    return case(["step"], script, lines([place, *ends, f"made {BLOCKS} ended {BLOCKS} left 0"]))


def all_blocks_and_one_more():
    """Each object owns itself, so that none ever ends, and the make after the last block is refused."""
    script = BLOCKS * "make a\nstore a.first a\n" + "make a\n"
    refused = f"1.{2 * BLOCKS + 1} refused 3\n"
    return case(["step"], script, refused + left(range(1, BLOCKS + 1), BLOCKS))


def run_fifteen_threads_full():
    """Each thread chains as many objects as its share of the blocks has, is refused one more, and leaves the
    chain in a cell."""
    threads, share = 15, BLOCKS // 15
    links = "make a\nmove b a\n" + (share - 1) * "make a\nstore a.next b\nmove b a\n"
    script = "thread\n".join(f"{links}make a\nstore s{number} b\n" for number in range(threads))
    refused = lines(f"{thread}.{links.count(chr(10)) + 1} refused 3" for thread in range(1, threads + 1))
    return case(["run"], script, refused + left(range(1, BLOCKS + 1), BLOCKS))


def run_sixteen_threads_publish():
    """Each thread stores object after object in one cell: whichever comes last is left, in whichever block,
    and all others end, each thread's in their turn."""
    threads, each = range(1, 17), 1_000
    made = len(threads) * each
    script = f"version 2 blocks {made}\n" + "thread\n".join(len(threads) * [each * "make a 1\nstore s0 a\n"])
    ends = "".join(rf"(?:{thread}\.(?:end|\d+) end 1 0 0 0\n)*" for thread in threads)
    all_ends = rf"(?=(?:\d+\.(?:end|\d+) end 1 0 0 0\n){{{made - 1}}}block)"
    totals = rf"block \d+ owners 1 weaks 0\nmade {made} ended {made - 1} left 1\n"
    pattern = case(["run"], script, pattern=f"{all_ends}{ends}{totals}\n")
    del pattern["stdout"]
    return pattern


def orders_of_one_long_thread():
    """A thread alone has one order, however many acts it has."""
    acts = 60_000
    told = ["outcome 1 turns", "made 0 ended 0 left 0", f"outcomes 1 states {acts + 1}", "complete"]
    return case(["orders"], acts * "empty a\n", lines(told))


def orders_of_two_long_threads():
    """The orders are more than are all gone through."""
    acts = 700
    told = ["outcome 1 turns", "made 0 ended 0 left 0", f"outcomes 1 states {(acts + 1) ** 2}", "searched"]
    return case(["orders"], "thread\n".join(2 * [acts * "empty a\n"]), lines(told))


VERSION_2 = "version 2 blocks 65535\n"
CASES = {
    "most_statements": lambda: counted("empty a\n", STATEMENTS),
    "too_many_statements": lambda: counted("empty a\n", STATEMENTS + 1),
    "most_statements_of_loads": lambda: counted("load a s0\n", STATEMENTS),
    "too_many_statements_of_loads": lambda: counted("load a s0\n", STATEMENTS + 1),
    "version_2_check_most_statements": lambda: counted("empty a\n", STATEMENTS, VERSION_2),
    "version_2_too_many_statements": lambda: counted("empty a\n", STATEMENTS + 1, VERSION_2),
    **{
        it.__name__: it
        for it in (
            chain_of_all_blocks,
            last_block_has_a_place,
            all_blocks_and_one_more,
            run_fifteen_threads_full,
            run_sixteen_threads_publish,
            orders_of_one_long_thread,
            orders_of_two_long_threads,
        )
    },
}


def made():
    """The files of each case, by its name."""
    for name, rule in CASES.items():
        yield name, {suffix: text.encode() for suffix, text in rule().items()}


def write(folder):
    """Writes each case's files to a folder."""
    for name, files in made():
        for suffix, text in files.items():
            pathlib.Path(folder, f"{name}.{suffix}").write_bytes(text)


if __name__ == "__main__":
    if len(sys.argv) != 2:
        sys.exit(__doc__)
    write(sys.argv[1])
