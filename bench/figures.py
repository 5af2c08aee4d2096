#!/usr/bin/env python3
"""Runs the program `bench` with times and prints the tables of bench/FIGURES.md; it is no test, and nothing in it can fail.

    figures.py [RUNS [MOST]]    so many runs in a row (1 if it is not said), with nothing beside them; trees of at most MOST parts (32,768; 2,048 or more)

`bench` reads what it is to do and prints counts and nanoseconds. What it does, and all that is computed of the times, is here. A time is
the least of all runs, in milliseconds. A multiple or a power is given from the least to the greatest of the runs.
"""
import math
import os
import subprocess
import sys
from typing import NamedTuple

ROOT = os.path.dirname(os.path.dirname(os.path.abspath(__file__)))
LEAST = 512
# In each round all edits have their turn, so that a while in which the machine is slow does not fall on one growth alone.
ROUNDS, TRIES, TURNS, WALKS = 5, 3, 15, 5
# The C library gives a large list back to the system when it is freed, until one that is larger still has been freed; then it keeps what
# is freed for later ones. Edits are measured as if one of 30 MiB had been freed, as in a program that has run for a while.
SETTLED = {"GLIBC_TUNABLES": "glibc.malloc.mmap_threshold=31457280:glibc.malloc.trim_threshold=62914560"}
FLAT, CHAIN = "tokens 100000", "blocks 1 74"


class Edit(NamedTuple):
    """An edit, by the name that the tables give it, and by the words of `bench`: a tree, and what is changed in it."""

    name: str
    tree: str
    changes: str

    @property
    def steps(self):
        return f"steps {self.tree} {self.changes}"

    @property
    def order(self):
        return f"order {self.tree} {self.changes}"


# What is edited in a tree of equal parts: its name, the tree and the change.
SUBJECTS = {
    "literals": ("literals, replaced", "literals", "replace"),
    "statements": ("statements, inserts", "literals", "insert"),
    "leaves": ("leaves of eight a node, replaced", "leaves", "replace"),
}


def spread(subject, parts, changes):
    name, tree, change = SUBJECTS[subject]
    return Edit(f"{name}, {parts} parts", f"{tree} {parts}", f"{change} {parts // changes}")


def nested(chains, depth, wraps):
    return Edit(f"blocks, wrapped {wraps} times, {chains} chains of {depth}", f"blocks {chains} {depth}", f"wrap {wraps}")


def noted(parts):
    return Edit(f"notes, inserts, {parts} parts", f"literals {parts}", f"note {parts}")


def brought(notes, times):
    return Edit(f"payload of {notes} notes, brought {times} times", f"literals {times}", f"bring {notes}")


def doubled(first, last):
    """The numbers from the first to the last, each twice the one before."""
    return [first << at for at in range(int(math.log2(last // first)) + 1)]


class Works:
    """What is measured where trees have at most this many parts. All other numbers are parts of that one."""

    def __init__(self, most):
        self.most, self.sizes = most, doubled(LEAST, most)
        blocks, notes, depths = most // 32, most // 8, doubled(1, most // 128)
        self.levels = {
            f"blocks round each copy, 1 to {depths[-1]}, of {blocks // 4} chains of 4": [nested(blocks // 4, 4, it) for it in depths],
            f"blocks of a chain, 1 to {depths[-1]}, of {blocks:,} in all": [nested(blocks // it, it, 1) for it in depths],
        }
        self.growths = {name: edits for subject in SUBJECTS for name, edits in self.growths_of(subject)} | {
            f"chains of 16 blocks, 16 to {blocks:,}": [nested(size // 32, 16, 1) for size in self.sizes],
            **self.levels,
            "literals with a note each": [noted(size) for size in self.sizes],
            f"notes of a payload that is brought 16 times, 64 to {notes:,}": [brought(size // 8, 16) for size in self.sizes],
            f"the times that a payload of {notes:,} notes is brought, 1 to {most // LEAST}": [brought(notes, size // LEAST) for size in self.sizes],
        }
        self.edits = list(dict.fromkeys(edit for edits in self.growths.values() for edit in edits))
        self.shown = [it for it in self.shown_edits(blocks, notes) if it in self.edits]
        self.payloads = [brought(notes, times) for times in (16, 64)]
        self.ordered = [spread(it, size, size) for it in SUBJECTS for size in doubled(256, notes)]
        # A chain of n nodes: a root, blocks with a list each, and a literal.
        wide, deep = [f"literals {size}" for size in self.sizes], [f"blocks 1 {size // 2 - 1}" for size in doubled(64, notes)]
        self.walks = {f"{walk} of a wide node of {most}": [f"{walk} {it}" for it in wide] for walk in ("children", "descendants", "next_token")}
        self.walks |= {f"{walk} of a chain of {notes}": [f"{walk} {it}" for it in deep] for walk in ("descendants", "ancestors", "next_token")}

    def growths_of(self, subject):
        yield f"{subject}: the changes, of a tree of {self.most:,}", [spread(subject, self.most, size) for size in self.sizes]
        yield f"{subject}: the tree, with {LEAST} changes", [spread(subject, size, LEAST) for size in self.sizes]
        yield f"{subject}: both", [spread(subject, size, size) for size in self.sizes]

    def shown_edits(self, blocks, notes):
        """The edits that have a row of their own."""
        part, most = self.most // 4, self.most
        shown = [spread(it, *size) for it in SUBJECTS for size in ((part, part), (most, LEAST), (most, most))]
        shown += [nested(chains, 16, 1) for chains in (16, blocks // 8, blocks)]
        shown += [nested(blocks // 4, 4, wraps) for wraps in (1, 8, 64, 256)]
        shown += [nested(blocks // depth, depth, 1) for depth in (1, 8, 64, 256)]
        shown += [noted(part), brought(notes, 16), brought(notes, 64)]
        return shown


def measured(program, lines, **environment):
    """What one run prints of these lines: the numbers by work and figure, in the order in which they were read."""
    run = subprocess.run([program], input="\n".join(lines) + "\n", capture_output=True, text=True, env={**os.environ, **environment}, check=True)
    readings = {}
    for line in run.stdout.splitlines():
        task, figure, number = line.split("; ")
        work = task.split(" ", 2)[2]
        readings.setdefault(work, {}).setdefault(figure, []).append(int(number))
    return readings


def least(readings, figure):
    return min(readings[figure]) / 1e6


def finished(readings):
    """The least time of planning and carrying out."""
    return min(map(sum, zip(readings["Planned"], readings["CarriedOut"]))) / 1e6


def power(times):
    """The power of the number that a time grows with: the least-squares slope of the logarithms, where each number is twice the one before."""
    middle = (len(times) - 1) / 2
    steps = [at - middle for at in range(len(times))]
    return sum(step * math.log2(time) for step, time in zip(steps, times)) / sum(step * step for step in steps)


class Run:
    """One run: the numbers that were read, and what tables are made of them, by the names of their rows."""

    def __init__(self, program, works):
        self.works = works
        self.trees = measured(program, [f"count 1 {it}" for it in self.tree_works().values()] + [f"time 1 {it}" for it in self.tree_works().values()])
        self.walked = measured(program, [f"{meter} {it}" for walks in works.walks.values() for it in walks for meter in ("count 1", f"time {WALKS}")])
        counts = [f"count 1 {it.steps}" for it in works.edits] + [f"count 1 descendants {it.tree}" for it in works.edits]
        times = [f"time {TRIES} {it.steps}" for it in works.edits] * ROUNDS
        self.edited = measured(program, counts + times, **SETTLED)
        pairs = [(noted(size), spread("statements", size, size)) for size in works.sizes]
        self.noted = measured(program, [f"time 1 {it.steps}" for pair in pairs for it in pair * TURNS], **SETTLED)
        copied = [(it.steps, self.copies(it)) for it in works.payloads]
        self.brought = measured(program, [f"time 1 {it}" for pair in copied for it in pair * TURNS], **SETTLED)
        ordered = [f"{meter} {it}" for edit in works.ordered for it in (edit.steps, edit.order) for meter in ("count 1", f"time {TRIES}")]
        self.ordered = measured(program, ordered, **SETTLED)

    @staticmethod
    def tree_works():
        return {"flat node's children": f"elements {FLAT}", "flat node's tokens, backwards": f"prev_token {FLAT}", "chain's descendants": f"descendants {CHAIN}"}

    @staticmethod
    def copies(payload):
        """A walk that gives as many paths as a payload has notes in the new tree."""
        (_, times), (_, notes) = payload.tree.split(), payload.changes.split()
        return f"descendants literals {int(times) * int(notes)}"

    def edits(self):
        for edit in self.works.shown:
            read, nodes = self.edited[edit.steps], self.edited[f"descendants {edit.tree}"]["Elements"][0]
            figures = ("Recorded", "Planned", "CarriedOut", "Least", "LeastWithAnswer")
            recorded, planned, run, floor, answer = times = [least(read, figure) for figure in figures]
            ratios = [planned / answer, run / answer, recorded / planned]
            yield (edit.name, f"{read['Changes'][0]:,}"), times, ratios, f"{read['NodesBuilt'][0]:,} of {nodes:,}"

    def grown(self, edits):
        """The times of planning and carrying out, and of recording, edit by edit."""
        read = [self.edited[it.steps] for it in edits]
        return [least(it, "Planned") + least(it, "CarriedOut") for it in read], [least(it, "Recorded") for it in read]

    def powers(self):
        for name, edits in self.works.growths.items():
            yield (name,), [], [power(times) for times in self.grown(edits)]

    def levels(self):
        """Where levels grow there are as many changes at each depth, which is twice the one before."""
        for name, edits in self.works.levels.items():
            for at, both in enumerate(zip(*self.grown(edits))):
                first = [times[0] for times in self.grown(edits)]
                yield (name, 2**at), [], [time / (one * 2**at) for time, one in zip(both, first)]

    def notes(self):
        for size in self.works.sizes:
            mine, plain = self.noted[noted(size).steps], self.noted[spread("statements", size, size).steps]
            times, recorded = [finished(mine), finished(plain)], [least(mine, "Recorded"), least(plain, "Recorded")]
            yield (f"{size:,}",), times, [times[0] / times[1], (times[0] + recorded[0]) / (times[1] + recorded[1])]

    def payloads(self):
        for edit in self.works.payloads:
            times = [finished(self.brought[edit.steps]), least(self.brought[self.copies(edit)], "PathsCopied")]
            yield (f"a {edit.name}",), times, [times[0] / times[1]]

    def orders(self):
        for edit in self.works.ordered:
            at_once, in_order = self.ordered[edit.steps], self.ordered[edit.order]
            yield (edit.name, f"{at_once['Changes'][0]:,}"), [finished(at_once), least(in_order, "InDefaultOrder")], []

    def walks(self):
        for name, works in self.works.walks.items():
            read = [self.walked[it] for it in works]
            times = [[least(it, figure) for it in read] for figure in ("Walked", "PathsCopied")]
            yield (name, f"{read[-1]['Elements'][0]:,}"), [it[-1] for it in times], [power(it) for it in times]

    def alone(self):
        for name, work in self.tree_works().items():
            read = self.trees[work]
            count, built = f"{read['Elements'][0]:,}", name.split("'")[0] + " built"
            if not name.endswith("backwards"):
                yield (built, count), [least(read, "Built")], []
            yield (name, count), [least(read, "Walked")], []


def from_to(numbers, digits):
    """From the least to the greatest."""
    lowest, highest = f"{min(numbers):.{digits}f}", f"{max(numbers):.{digits}f}"
    return lowest if lowest == highest else f"{lowest} to {highest}"


def milliseconds(number):
    """With two digits that count."""
    return f"{number:.2g}" if number < 99.5 else f"{number:.0f}"


def table(heads, runs, digits=1, time=milliseconds):
    """A row for each name: of each time the least of the runs, of each multiple or power the least and the greatest."""
    print("| " + " | ".join(heads) + " |")
    print("|" + "---|" * len(heads))
    for rows in zip(*runs):
        names, _, _, *rest = rows[0]
        times = [time(min(it)) for it in zip(*(row[1] for row in rows))]
        ratios = [from_to(it, digits) for it in zip(*(row[2] for row in rows))]
        print("| " + " | ".join(map(str, [*names, *times, *ratios, *rest])) + " |")
    print()


def show(runs):
    heads = ["edit", "changes", "recorded", "planned", "carried out", "the least", "the least with its answer"]
    heads += ["planned, times that", "carried out, times that", "recorded, times planned", "nodes built"]
    table(heads, [run.edits() for run in runs])
    table(["edit", "changes", "finished", "by the default order"], [run.orders() for run in runs])
    table(["what", "elements", "milliseconds"], [run.alone() for run in runs], time="{:.2f}".format)
    table(["walk", "elements", "milliseconds", "their paths copied", "power", "power of these copies"], [run.walks() for run in runs], 2)
    table(["what grows", "planned and carried out", "recorded"], [run.powers() for run in runs], 2)
    heads = ["what grows", "depth", "planned and carried out, each change and level, times that at depth 1", "recorded"]
    table(heads, [run.levels() for run in runs], 2)
    table(["notes and inserts", "finished", "the same without notes", "times that", "with recording, times that"], [run.notes() for run in runs])
    table(["payload", "finished", "as many paths copied", "times that"], [run.payloads() for run in runs])


def program(name):
    """The path of a program, which is made if it is not there or older than a source."""
    made = [sys.executable, f"{ROOT}/tests/programs.py", name]
    return subprocess.run(made, stdout=subprocess.PIPE, text=True, check=True).stdout.strip()


def main():
    numbers = [int(it) for it in sys.argv[1:]]
    runs, most = numbers + [1, 32768][len(numbers) :]
    path, works = program("bench"), Works(most)
    show([Run(path, works) for _ in range(runs)])


if __name__ == "__main__":
    main()
