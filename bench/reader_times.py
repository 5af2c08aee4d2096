#!/usr/bin/env python3
"""Measures how long the program `syned` takes for long scripts; it is no test, and nothing in it can fail.

    reader_times.py       each script at full size and at half, the shortest of five runs

Of each script it prints the bytes, the milliseconds, the nanoseconds for each byte, and the power by which the time grew from half the size to the
whole: 1 where the time is linear in the script, 2 where it is quadratic. The time of an empty script is taken off."""
import math
import subprocess
import time

from figures import program

SCRIPT_LIMIT = 1_048_576
RUNS = 5


def list_of(count, edited="A"):
    """A tree with so many tokens below one node, and the line that edits it."""
    return f"tree {edited} (ARG_LIST " + 'COMMA"," ' * (count - 1) + f'COMMA",")\nedit R {edited}\n'


def one_tree(count):
    return list_of(8 * count) + "finish\n"


def many_trees(count):
    trees = "".join(f'tree T{i} (ARG_LIST COMMA",")\n' for i in range(2 * count))
    return trees + "edit R T0\nfinish\n"


def names_looked_up(count):
    trees = "".join(f'tree T{i} (ARG_LIST COMMA",")\n' for i in range(count))
    edits = "".join(f"insert last R T{i}\n" for i in range(1, count))
    return trees + "edit R T0\n" + edits + "finish\n"


def siblings_deleted(count):
    return list_of(4 * count) + "".join(f"delete R/{i}\n" for i in range(4 * count)) + "finish\n"


def siblings_replaced(count):
    new = 'tree N (ARG_LIST COMMA",")\n'
    return new + list_of(3 * count) + "".join(f"replace R/{i} N/0\n" for i in range(3 * count)) + "finish\n"


def deep_references(count):
    """Elements 64 deep in one tree, each deleted."""
    depth, width = 64, count // 8
    leaves = 'COMMA"," ' * (width - 1) + 'COMMA","'
    tree = "tree A " + "(ARG_LIST " * depth + leaves + ")" * depth + "\nedit R A\n"
    way = "R" + "/0" * (depth - 1)
    return tree + "".join(f"delete {way}/{i}\n" for i in range(width)) + "finish\n"


def one_word_noted(count):
    return list_of(count) + "".join(f"note word R/{i}\n" for i in range(count)) + "finish\n"


def many_words_noted(count):
    return list_of(count) + "".join(f"note word{i} R/{i}\n" for i in range(count)) + "finish\n"


SCRIPTS = [
    ("one tree, read and printed", one_tree),
    ("20,000 trees", many_trees),
    ("10,000 trees, each looked up by name", names_looked_up),
    ("40,000 siblings, each deleted", siblings_deleted),
    ("30,000 siblings, each replaced", siblings_replaced),
    ("1,250 elements 64 deep, each deleted", deep_references),
    ("10,000 notes of one word", one_word_noted),
    ("10,000 notes of a word each", many_words_noted),
]


def shortest(program, script):
    """The seconds that the program takes, and its last word on the script."""
    best, said = math.inf, b""
    for _ in range(RUNS):
        start = time.perf_counter()
        said = subprocess.run([program], input=script, capture_output=True, env={}, check=False).stdout
        best = min(best, time.perf_counter() - start)
    return best, said


def main():
    path = program("syned")
    nothing, _ = shortest(path, b"")
    for name, make in SCRIPTS:
        times = []
        for count in (5_000, 10_000):
            script = make(count).encode()
            assert len(script) <= SCRIPT_LIMIT, (name, len(script))
            seconds, said = shortest(path, script)
            assert said.startswith(b'text "'), (name, said[:80])
            times.append((len(script), max(seconds - nothing, 1e-6)))
        (half_size, half), (size, whole) = times
        power = math.log(whole / half) / math.log(size / half_size)
        print(f"{name}: {size} bytes, {whole * 1e3:.1f} ms, {whole / size * 1e9:.0f} ns a byte, power {power:.2f}")


main()
