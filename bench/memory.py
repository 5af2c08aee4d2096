#!/usr/bin/env python3
"""Measures what edits of the program `bench` hold; it is no test, and nothing in it can fail.

A library that is built for it (bench/memory_marks.c) counts the bytes of the blocks that the program takes and frees, from one reading of
the clock to the next. For each edit this prints

    finish, most       the most that `finish` would hold at a time beyond what was there before it: that of planning, or of carrying out,
                       and then with what is kept of planning
    run, most          the same of carrying out a plan that was made before
    run, kept          what was still there of that after it: the new tree, with its changed elements and notes
    nodes              what the nodes take that any engine has to make, with their lists of children
    finish / nodes     the most of `finish` as a multiple of what the nodes take
    run / kept         the most of carrying out as a multiple of what is kept of it
"""
import os
import subprocess
import tempfile

from figures import ROOT, nested, noted, program, spread

PARTS = 8192
EDITS = [*(spread(it, PARTS, PARTS) for it in ("literals", "statements", "leaves")), nested(PARTS // 32, 16, 1), noted(PARTS)]
HEADS = ("finish, most", "run, most", "run, kept", "nodes", "finish / nodes", "run / kept")


def marked(program, room):
    """What the program prints, a line for each part, and what the library says of each. Between two parts it says a line, too."""
    library = os.path.join(room, "memory_marks.so")
    subprocess.run([os.environ.get("CC", "cc"), "-O1", "-shared", "-fPIC", "-o", library, f"{ROOT}/bench/memory_marks.c", "-ldl"], check=True)
    lines = "".join(f"time 1 {it.steps}\n" for it in EDITS)
    run = subprocess.run([program], input=lines, capture_output=True, text=True, env={"LD_PRELOAD": library}, check=True)
    return run.stdout.splitlines(), run.stderr.splitlines()[::2]


def bytes_by_part(lines, counts):
    """The most and what is kept, by edit and part."""
    assert len(lines) == len(counts), (lines, counts)
    parts = {}
    for line, count in zip(lines, counts):
        task, part, _ = line.split("; ")
        _, most, _, kept = count.split()
        parts.setdefault(task, {})[part] = (int(most), int(kept))
    return parts


def row(parts):
    """The figures of an edit, in the order of HEADS."""
    (planning, plan), (run, kept), (_, nodes) = (parts[part] for part in ("Planned", "CarriedOut", "Least"))
    finish = max(planning, plan + run)
    return [f"{number:,}" for number in (finish, run, kept, nodes)] + [f"{finish / nodes:.1f}", f"{run / max(kept, 1):.1f}"]


def main():
    with tempfile.TemporaryDirectory() as room:
        parts = bytes_by_part(*marked(program("bench"), room))
    print("| edit | " + " | ".join(HEADS) + " |")
    print("|" + "---|" * (len(HEADS) + 1))
    for edit in EDITS:
        print(f"| {edit.name} | " + " | ".join(row(parts[f"time 1 {edit.steps}"])) + " |")


main()
