#!/usr/bin/env python3
"""Runs the program `syned` on scripts that no one writes on purpose, cut, endless, deep and damaged, and `test_rows` on deep trees.

    hostile.py               all of it
    hostile.py damage N      N damaged scripts alone
    hostile.py deep N KIB    deep trees alone, N deep, with so much stack

Each run of a script has a second of processor time, and a stack of 256 KiB beyond what a script with nodes nested 200 deep needs, which is
found out first. There are four parts: rows with their answers; every beginning of three scripts; rows about deep trees; and good scripts that
were damaged, by a fixed seed, so each time the same ones.

A deep tree has N blocks, one inside another, and a literal, the leaf, in the innermost; there are four of them, by the tokens beside each block.
Little stack is there, so a call that nests with the depth of a tree ends the program by a signal. Rows (docs/ROWS.md) are made for a depth. Those
whose answers name each level are asked about fewer levels, since their answers are as long as the square of these.

In a third of the damaged scripts bytes were changed, cut, doubled or exchanged. In the others slots, trees, words and kinds were exchanged for
others of the script, and lines moved, so that about half of all come to an end or a refusal. No answer is known of them: the program must print
what the model says (tests/model.py), with the status that goes with it. Where a script comes to an end or a refusal, all else that the editor
says of it is compared with the model as well, as by tests/models.py."""
import itertools
import multiprocessing
import os
import random
import re
import subprocess
import sys
import tempfile
from concurrent.futures import ProcessPoolExecutor

import known
import model
import models
import programs
from known import LIMIT, OPENING, UNCHANGED, bad

SPARE_STACK = 256
DAMAGED = 20_000
# So many damaged scripts are tried by one worker at a time.
GROUP = 40
# After so many wrong answers the others are not asked for.
MOST_WRONG = 20
SEED = 20_260_101
# How deep trees are, and how many KiB of stack there are; and where answers name each level.
DEEP = [(1_000_000, 8192), (100_000, 1024)]
SQUARE = (500, 64)
# Runs about deep trees at once: a tree of a million nodes takes some 200 MB.
RUNS = 2
SECONDS = 600


def run(path, script, stack=None, words=()):
    """The exit status, None where the run did not end by itself within its second, and what was printed."""
    try:
        command = [*programs.limited(path, 1, stack), *words]
        done = subprocess.run(command, input=script, capture_output=True, env={}, timeout=60, check=False)
    except subprocess.TimeoutExpired:
        return None, b""
    return (done.returncode if done.returncode >= 0 else None), done.stdout


def status_of(answer):
    """The exit status that goes with an answer, None where it is none."""
    for begin, status in ((b'text "', 0), (b"refused ", 1), (b"bad script line ", 2)):
        if answer.startswith(begin) and answer.endswith(b"\n"):
            return status
    return 3 if not answer else None


# Rows: a name, a script, its answer, and the words after `syned`, if there are any.

LIST = known.OPENING.split("edit")[0]
REPLACED = 'text "(_, 2)"\nchanged 1\n'


def filled(before, piece, after=""):
    """A script of the greatest length, or a bit less: so many pieces between two texts."""
    return before + piece * ((LIMIT - len(before) - len(after)) // len(piece)) + after


def nested(levels, inner=""):
    return "(LITERAL " * levels + inner + ")" * levels


def deep_edit(levels):
    """An edit at the bottom of a tree that is nested so deep, whose payload is as deep."""
    bottom = "R" + "/0" * (levels - 1)
    tree = nested(levels, 'IDENT"a"')
    return f"tree A {tree}\ntree B {tree}\nedit R A\nnote w B\nreplace {bottom}/0 B\nfinish\n", bottom


def deep_answer(levels):
    script, bottom = deep_edit(levels)
    path = bottom[2:] + "/0"
    return script, f'text "a"\nchanged {path}\nnote w {path}\n'


def line_rows():
    """One line that is as long as a script may be, of a word, of spaces, of a number."""
    return [
        ("letters", filled("", "x"), bad(1)),
        ("a comment", filled("#", "x"), bad(2)),
        ("opening parentheses", filled("", "("), bad(1)),
        ("closing parentheses", filled("", ")"), bad(1)),
        ("backslashes", filled("", "\\"), bad(1)),
        ("quotes", filled("", '"'), bad(1)),
        ("slashes", filled("", "/"), bad(1)),
        ("spaces", filled("", " "), bad(2)),
        ("tabs", filled("", "\t"), bad(1)),
        ("carriage returns", filled("", "\r"), bad(1)),
        ("newlines", filled("", "\n"), bad(LIMIT + 1)),
        ("newlines before the end", filled(OPENING, "\n", "finish\n"), UNCHANGED),
        ("newlines after the end", filled(OPENING + "finish\n", "\n"), UNCHANGED),
        ("lines with carriage returns before the end", filled(OPENING, "\r\n", "finish"), UNCHANGED),
        ("spaces after the end", filled(OPENING + "finish", " "), UNCHANGED),
        ("spaces before the end", filled(OPENING, " ", "finish\n"), UNCHANGED),
        ("spaces between fields", filled(OPENING + "replace R/1", " ", "U/0\nfinish\n"), REPLACED),
        ("spaces in a tree", filled("tree A (ARG_LIST", " ", ')\nedit R A\nfinish\n'), 'text ""\nchanged\n'),
        ("a tree's name", filled("tree ", "A", " (ARG_LIST)\n"), bad(1)),
        ("a name that a line asks for", filled(OPENING + "delete ", "R", "\nfinish\n"), bad(4)),
        ("a note's word", filled(OPENING + "note ", "w", " R\nfinish\n"), bad(4)),
        ("a kind's name", filled("tree A (", "A", ")\n"), bad(1)),
        ("a first word", filled(OPENING, "finish", "\n"), bad(4)),
        ("a slot of zeros and a one", filled(OPENING + "replace R/", "0", "1 U/0\nfinish\n"), REPLACED),
        ("a slot of nines", filled(OPENING + "replace R/", "9", " U/0\nfinish\n"), bad(4)),
        ("slots", filled(OPENING + "replace R/1", "/0", " U/0\nfinish\n"), bad(4)),
        ("slashes after a name", filled(OPENING + "replace R", "/", " U/0\nfinish\n"), bad(4)),
        ("a number of an order, of zeros", filled(OPENING + "delete R/1\norder ", "0", "\nfinish\n"), 'text "(, 2)"\nchanged\n'),
        ("a number of an order, of nines", filled(OPENING + "delete R/1\norder ", "9", "\nfinish\n"), bad(5)),
        ("numbers of an order", filled(OPENING + "delete R/1\norder", " 0", "\nfinish\n"), "refused NotEachOnce\n"),
        ("a thousand digits of a slot", OPENING + "replace R/" + "0" * 999 + "1 U/0\nfinish\n", REPLACED),
        ("a thousand digits of a slot that is not there", OPENING + "replace R/" + "1" * 1000 + " U/0\nfinish\n", bad(4)),
        ("a thousand digits of an order", OPENING + "delete R/1\norder " + "0" * 1000 + "\nfinish\n", 'text "(, 2)"\nchanged\n'),
        ("a thousand digits of an order, past all numbers", OPENING + "order " + "7" * 1000 + "\nfinish\n", bad(4)),
    ]


def tree_rows():
    """Trees that are nested as deep as can be or deeper, and texts."""
    return [
        ("200 levels", f"tree A {nested(200)}\nedit R A\nfinish\n", 'text ""\nchanged\n'),
        ("201 levels", f"tree A {nested(201)}\nedit R A\nfinish\n", bad(1)),
        ("201 levels after good lines", f"{OPENING}tree B {nested(201)}\nfinish\n", bad(4)),
        ("an edit below 200 levels", *deep_answer(200)),
        ("levels without end", filled("tree A ", "(ATTR ", "\n"), bad(1)),
        ("levels that all close", f"tree A {nested(100_000)}\nedit R A\nfinish\n", bad(1)),
        ("parentheses in place of a tree", filled("tree A ", "(", "\n"), bad(1)),
        ("parentheses that close nothing", filled("tree A (ARG_LIST", ")", "\n"), bad(1)),
        ("nodes beside each other", filled("tree A (ARG_LIST", "(ATTR)", ")\nedit R A\nfinish\n"), 'text ""\nchanged\n'),
        ("tokens without text beside each other", filled("tree A (ARG_LIST ", 'PLUS""', ")\nedit R A\nfinish\n"), 'text ""\nchanged\n'),
        ("a tree that does not close", filled("tree A (ARG_LIST", "(ATTR)"), bad(1)),
        ("a text that does not close", filled('tree A (ARG_LIST IDENT"', "x"), bad(1)),
        ("a text of backslashes", *escaped("\\\\")),
        ("a text of backslashes, one too many", filled('tree A (ARG_LIST IDENT"', "\\\\", '\\")\nedit R A\nfinish\n'), bad(1)),
        ("a text of escaped newlines", *escaped("\\n")),
        ("a text of escaped quotes", *escaped('\\"')),
        ("a text of letters", *escaped("x")),
    ]


def wide_rows():
    """Trees that only the wide dialect reads, with as little stack."""
    return [
        ("wide: levels that all close", f"tree A {nested(100_000)}\nedit R A\nfinish\n", 'text ""\nchanged\n', *known.WIDE),
        ("wide: an edit below 10,000 levels", *deep_answer(10_000), *known.WIDE),
        ("wide: levels without end", filled("tree A ", "(ATTR ", "\n"), bad(1), *known.WIDE),
    ]


def escaped(piece):
    """A text of such pieces, which is printed as it was written."""
    script = filled('tree A (ARG_LIST IDENT"', piece, '")\nedit R A\nfinish\n')
    text = script.split('"')[1] if '"' not in piece else piece * script.count(piece)
    return script, f'text "{text}"\nchanged\n'


def length_rows():
    whole = filled(OPENING + "replace R/1 U/0\nfinish\n#", " ")
    return [
        ("the greatest length", whole, REPLACED),
        ("one byte more", whole + " ", bad(0)),
        ("one byte more, of a script that is bad", filled("", "no\n") + "no\n", bad(0)),
        ("eight times as many bytes", whole * 8, bad(0)),
    ]


# Bytes that are no text, no space, or no newline.
BYTE_ROWS = [
    ("a NUL alone", b"\0", bad(1)),
    ("NULs", b"\0" * LIMIT, bad(1)),
    ("a NUL in a name", b"tree A\0 (ARG_LIST)\n", bad(1)),
    ("a NUL in a kind", b"tree A (ARG_LIST\0)\n", bad(1)),
    ("a NUL at the end", OPENING.encode() + b"finish\0\n", bad(4)),
    ("a NUL after the end", OPENING.encode() + b"finish\n\0", bad(5)),
    ("a NUL in a comment", b"# \0\n" + OPENING.encode() + b"finish\n", UNCHANGED),
    ("a NUL in a text", b'tree A (ARG_LIST IDENT"a\0b")\nedit R A\nfinish\n', 'text "a\0b"\nchanged\n'),
    ("a mark of the order of bytes", b"\xef\xbb\xbf" + OPENING.encode() + b"finish\n", bad(1)),
    ("a space that is none", OPENING.encode() + "finish\u00a0\n".encode(), bad(4)),
    ("a newline that is none", OPENING.encode() + "finish\u2028".encode(), bad(4)),
    ("a byte that is no text, in a comment after the end", OPENING.encode() + b"finish\n#\xff", bad(0)),
    ("a byte that is no text, as the last of the greatest length", filled("", "no\n").encode()[:-1] + b"\xff", bad(0)),
    ("half a character at the limit", filled(OPENING + "finish\n#", " ").encode()[:-1] + "é".encode(), bad(0)),
    ("letters of two bytes", OPENING.encode() + "délete R/1\nfinish\n".encode(), bad(4)),
]

# Lines that are bad after `finish`, whether or not they would be good before it.
LINES_AFTER_THE_END = [
    'tree B (ARG_LIST)', "edit S A", "map R R R", "insert first R U/0", "insert last R", "insert before R/1 U", "insert after R/1 U",
    "delete R/1", "delete R", "replace R/1 U", "replace R", "range R/1 R/2", "range R/1 R/2 U", "note w R", "order", "order 0", "finish",
    "remove R/1 COMMA", "no", "\t", "\r\r", "(", '"', "0",
]


def end_rows():
    rows = [(f"{line!r} after the end", f"{OPENING}finish\n# a comment\n\n{line}\n", bad(7)) for line in LINES_AFTER_THE_END]
    rows += [(f"{line!r} after an end that is refused", f"{OPENING}replace R/1 R/1\ninsert after R/1 U\nfinish\n{line}\n", bad(7))
             for line in LINES_AFTER_THE_END]
    rows += [(f"{line!r} after a refusal", f"{OPENING}delete R\n{line}\nfinish\n{line}\n", "refused DeletesRoot\n")
             for line in LINES_AFTER_THE_END]
    return rows


def many_rows():
    """As many lines as there is room for."""
    lines = (LIMIT - len(OPENING) - 100) // len("insert first R U/0\n")
    notes = (LIMIT - len(OPENING) - 100) // len("note w R/1\n")
    return [
        ("inserts into one gap", OPENING + "insert first R U/0\n" * lines + "finish\n",
         f'text "{"_" * lines}(1, 2)"\nchanged {" ".join(map(str, range(lines)))}\n'),
        ("replacements of one element", filled(OPENING, "replace R/1 U/0\n", "finish\n"), REPLACED),
        ("deletions of one element", filled(OPENING, "delete R/1\n", "finish\n"), 'text "(, 2)"\nchanged\n'),
        ("several for one element, again and again", filled(OPENING, "replace R/1 U/0 U\n", "finish\n"), "refused Intersecting 0 1\n"),
        ("notes of one element", OPENING + "note w R/1\n" * notes + "finish\n", f'{UNCHANGED}note w{" 1" * notes}\n'),
        ("elements of one insert", filled(OPENING + "insert first R", " U/0", "\ndelete R/0\ndelete R/5\nrange R/1 R/4\nfinish\n"), None),
    ]


# Every beginning of some scripts of the tables.

GOOD = None

# What comes of a last line that is cut, but not bad: it is good, so that the line after it is missing, or it is refused.
BEGINNINGS = {
    "edits.table: one token for a literal": {
        "replace R": "refused RootReplacement\n",
        "replace R/1": GOOD,
        "replace R/1 U": GOOD,
    },
    "notes.table: notes of a name and of its use in a wrapped value": {
        "map W/0/2/2 NM W": "refused NotAChild\n",
        "map W/0/2/2 NM W/0": "refused NotAChild\n",
        "map W/0/2/2 NM W/0/2": "refused NotAChild\n",
        "map W/0/2/2 NM W/0/2/2": "refused NotAChild\n",
        "map W/0/2 R/4/1 W": "refused NotAChild\n",
        "map W/0/2 R/4/1 W/0": "refused NotAChild\n",
        "map W/0/2 R/4/1 W/0/2": "refused NotAChild\n",
        "map W/0 R/4 W": "refused NotAChild\n",
        "map W/0 R/4 W/0": "refused NotAChild\n",
        "replace R": "refused RootReplacement\n",
        "replace R/4": GOOD,
        "replace R/4/1": GOOD,
    },
    "orders.table: inserts into a wrapped block by 1 0 2": {
        "map N/0 R/0/2 N": "refused NotAChild\n",
        "map N/0 R/0/2 N/0": "refused NotAChild\n",
        "insert first R": GOOD,
        "insert first R/0": GOOD,
        "insert first R/0/2": GOOD,
        "insert first R/0/2/0": GOOD,
        "insert after R/0": GOOD,
        "insert after R/0/2": GOOD,
        "insert after R/0/2/0": GOOD,
        "insert after R/0/2/0/2": GOOD,
        "replace R": "refused RootReplacement\n",
        "replace R/0": GOOD,
        "replace R/0/2": GOOD,
        "order": GOOD,
        "order 1": GOOD,
        "order 1 0": GOOD,
    },
}


def beginning_rows():
    rows = []
    tables = {case.name: (case.script.decode(), case.answer.decode()) for case in known.known("tables")}
    for name, cut_lines in BEGINNINGS.items():
        script, answer = tables[name]
        for size in range(len(script) + 1):
            beginning = script[:size]
            before, last = beginning.rsplit("\n", 1) if "\n" in beginning else ("", beginning)
            lines = beginning.count("\n")
            last = last.strip(" ")
            if last == "finish" or beginning == script:
                wanted = answer
            elif last == "" or last in script.split("\n") or cut_lines.get(last, "") is GOOD:
                wanted = bad(lines + 1 + (last != ""))
            else:
                wanted = cut_lines.get(last, bad(lines + 1))
            rows.append((f"{name}, the first {size} bytes", beginning, wanted))
    return rows


# Damaged scripts.


def good_scripts():
    """Scripts that are not bad; a damaged bad one is bad mostly."""
    return [case.script for case in known.known("tables", "corpus") if case.status < 2]


def span(chance, script):
    """The start and the end of some bytes: a few, a field, or a line."""
    start = chance.randrange(len(script) + 1)
    form = chance.randrange(3)
    if form == 0:
        return start, min(len(script), start + chance.randrange(1, 9))
    separators = b"\n" if form == 1 else b" \n/"
    while start > 0 and script[start - 1] not in separators:
        start -= 1
    end = start
    while end < len(script) and script[end] not in separators:
        end += 1
    return start, min(len(script), end + 1)


def changed_byte(chance, script):
    at = chance.randrange(len(script))
    if chance.randrange(3) == 0:
        byte = chance.randrange(256)
    elif 48 <= script[at] < 58:
        byte = 48 + chance.randrange(10)
    else:
        byte = script[chance.randrange(len(script))]
    return script[:at] + bytes([byte]) + script[at + 1:]


def broken_once(chance, script):
    """The script with bytes changed, cut, doubled, put elsewhere, or exchanged for others."""
    form = chance.randrange(6)
    if not script or form == 0:
        return script[:chance.randrange(len(script) + 1)]
    if form == 1:
        return changed_byte(chance, script)
    start, end = span(chance, script)
    if form == 2:
        return script[:start] + script[end:]
    if form == 3:
        return script[:end] + script[start:]
    other, other_end = span(chance, script)
    if form == 4:
        return script[:other] + script[start:end] + script[other:]
    if other < start:
        start, end, other, other_end = other, other_end, start, end
    if end > other:
        return script
    return script[:start] + script[other:other_end] + script[end:other] + script[start:end] + script[other_end:]


def broken(chance, script):
    """A script whose bytes are damaged. What comes after the trees is damaged more often than these, of which most of a script is."""
    while True:
        worse = script
        for _ in range(chance.randrange(1, 4)):
            worse = broken_once(chance, worse)
        if worse != script and (chance.randrange(8) == 0 or len(trees_of(worse) & trees_of(script)) >= len(trees_of(script)) - 1):
            return worse


# What a line names, by the lines in which it may stand: a slot, a tree or an element, a word, a kind, a number of an order.
CHANGES = rb"(?:map|insert|delete|replace|range|note|remove) "
FIELDS = [
    (CHANGES, rb"/\d+"),
    (CHANGES, rb"/\d+"),
    (CHANGES, rb"(?<= )\w+(?=[ /\n])(?:/\d+)*"),
    (CHANGES, rb"(?<= )\w+(?=[ /\n])"),
    (rb"insert ", rb"first|last|before|after"),
    (rb"tree ", rb"(?<=\()[A-Z]\w*|(?<=[ )])[A-Z]\w*(?=\")"),
    (rb"order", rb"\d+"),
]


def places(script, start, field):
    """Where such fields are in the lines that start so."""
    found = []
    for line in re.finditer(rb"^[^\n]*\n?", script, re.M):
        if re.match(start, line[0]):
            found += [(line.start() + it.start(), line.start() + it.end()) for it in re.finditer(field, line[0])]
    return found


def exchanged_field(chance, script):
    """The script with a field exchanged for another one of its sort."""
    found = places(script, *chance.choice(FIELDS))
    if not found:
        return script
    start, end = chance.choice(found)
    other, other_end = chance.choice(found)
    return script[:start] + script[other:other_end] + script[end:]


def moved_line(chance, script):
    """The script with two lines exchanged, or one doubled, put elsewhere or left out; lines that name trees are kept."""
    lines = script.split(b"\n")
    movable = [at for at, line in enumerate(lines) if re.match(CHANGES + rb"|order", line)]
    if not movable:
        return script
    at, other = chance.choice(movable), chance.choice(movable)
    form = chance.randrange(4)
    if form == 0:
        lines[at], lines[other] = lines[other], lines[at]
    elif form == 1:
        lines.insert(other, lines[at])
    elif form == 2:
        lines.insert(other, lines.pop(at))
    else:
        del lines[at]
    return b"\n".join(lines)


def bent(chance, script):
    """A script that says something else: fields are exchanged for others of their sort, and lines moved."""
    worse = script
    for _ in range(16):
        for _ in range(chance.randrange(1, 4)):
            worse = chance.choice([exchanged_field, exchanged_field, moved_line])(chance, worse)
        if worse != script:
            break
    return worse


def damaged(number, scripts):
    chance = random.Random(SEED + number)
    script = chance.choice(scripts)
    return broken(chance, script) if chance.randrange(3) == 0 else bent(chance, script)


def trees_of(script):
    return {line for line in script.split(b"\n") if line.startswith(b"tree ")}


class Task:
    """What the workers share."""

    syned = answers = None
    stack = 0
    scripts = []


def try_row(row):
    name, script, wanted, *words = row
    script = script if isinstance(script, bytes) else script.encode()
    status, out = run(Task.syned, script, Task.stack, words)
    if wanted is not None and (status != status_of(wanted.encode()) or out != wanted.encode()):
        return f"wrong: {name}: status {status}, it printed {out[:100]!r}, and should have printed {wanted[:100]!r}"
    if status is None or status_of(out) != status:
        return f"wrong: {name}: status {status}, it printed {out[:100]!r}"
    return None


def try_damaged(numbers):
    """For each of these damaged scripts the status, and what is wrong. What the editor says of their plans is asked of all in one run, and of each
    in one of its own where that is not as it has to be."""
    tried, asked = [], []
    for number in numbers:
        script = damaged(number, Task.scripts)
        status, out = run(Task.syned, script, Task.stack)
        meant = model.IsAnswerFor(model.SYNED, script)
        tried.append((status, (status, out) != meant and f"wrong: damaged script {number}: status {status}, it printed {out[:200]!r}; "
                      f"the model {meant[0]}, {meant[1][:200]!r}\n{script.decode(errors='replace')}"))
        if status in (0, 1) and not tried[-1][1]:
            asked.append((len(tried) - 1, script, *models.asked((f"damaged {number}", script))))
    if is_said("".join(batch for *_, batch, _ in asked), "".join(wanted for *_, wanted in asked)):
        return tried
    for at, script, batch, wanted in asked:
        if not is_said(batch, wanted):
            said = run(Task.answers, batch.encode())[1].decode(errors="replace")
            tried[at] = tried[at][0], f"wrong: {models.difference(wanted, said) or 'it does not end well'}\n{script.decode(errors='replace')}"
    return tried


def is_said(batch, wanted):
    """Whether the program that prints what the editor says of a batch prints this, and ends well."""
    return run(Task.answers, batch.encode()) == (0, wanted.encode())


def needed_stack():
    """How many KiB of stack the script with 200 levels needs."""
    script, wanted = deep_answer(200)
    enough, little = 8192, 0
    while enough - little > 4:
        middle = (enough + little) // 2
        status, out = run(Task.syned, script.encode(), middle)
        if (status, out) == (0, wanted.encode()):
            enough = middle
        else:
            little = middle
    if enough == 8192:
        sys.exit("hostile: the edit below 200 levels has no answer")
    return enough


def rows(pool):
    every = line_rows() + tree_rows() + wide_rows() + length_rows() + BYTE_ROWS + end_rows() + many_rows() + beginning_rows()
    wrong = []
    for said in pool.map(try_row, every, chunksize=16):
        wrong += [said] if said else []
        if len(wrong) == MOST_WRONG:
            print(*wrong, "hostile: the other rows were not run", sep="\n")
            return wrong
    print(*wrong, f"hostile: {len(every) - len(wrong)} of {len(every)} rows answer as expected", sep="\n")
    return wrong


def damage(pool, count):
    statuses, wrong = [0, 0, 0], []
    groups = [range(at, min(at + GROUP, count)) for at in range(0, count, GROUP)]
    for status, said in itertools.chain.from_iterable(pool.map(try_damaged, groups)):
        if said:
            wrong.append(said)
        else:
            statuses[status] += 1
        if len(wrong) == MOST_WRONG:
            break
    print(*wrong, sep="\n", end="\n" if wrong else "")
    print(f"hostile: {count} damaged scripts: {statuses[0]} done, {statuses[1]} refused, {statuses[2]} bad; "
          f"wrong: {len(wrong)}")
    return wrong


# Deep trees.

NESTINGS = {"bare": (0, 0), "left": (0, 1), "right": (1, 0), "brackets": (1, 1)}
# So many slots of a path that are the same are written once, with how many they are.
MANY = 100


def path(*runs):
    """A path of runs of slots, each a slot and how often it comes."""
    slots = []
    for slot, times in runs:
        if slots and slots[-1][0] == slot:
            slots[-1][1] += times
        elif times:
            slots.append([slot, times])
    parts = [f"{slot}x{times}" if times >= MANY else "/".join([str(slot)] * times) for slot, times in slots]
    return "/".join(parts) or "."


def questions(nesting, depth):
    """Questions about the tree T."""
    before, after = NESTINGS[nesting]
    slot, leaf, token = before, path((before, depth)), path((before, depth), (0, 1))
    text = "{" * (before * depth) + "3" + "}" * (after * depth)
    lowest = path((slot, depth - 1))
    first, last = ("0 L_CURLY" if before else f"{token} INT_NUMBER"), (f"{before + 1} R_CURLY" if after else f"{token} INT_NUMBER")
    after_leaf = f"{path((slot, depth - 1), (slot + 1, 1))} R_CURLY" if after else "none"
    before_leaf = f"{path((slot, depth - 1), (0, 1))} L_CURLY" if before else "none"
    back = f"{leaf} LITERAL" + (f", {before_leaf}" if before else "")
    on = f"{leaf} LITERAL" + (f", {after_leaf}" if after else "")
    start, root = before * depth, f"BLOCK_EXPR of {before + 1 + after}, {len(text)} bytes" + (f' "{text}"' if len(text) <= 200 else "")
    below = ["0 L_CURLY"] * before + [f"{slot} BLOCK_EXPR"] + [f"{slot + 1} R_CURLY"] * after
    return {
        f"facts T/{leaf}": f"{leaf} of 7 at {leaf}, LITERAL, slot {slot}, {start}..{start + 1}, 1 bytes, Node(LITERAL@{start}..{start + 1})",
        "facts T": f". of 7 at ., BLOCK_EXPR, slot 0, 0..{len(text)}, {len(text)} bytes, Node(BLOCK_EXPR@0..{len(text)})",
        "texts T": f'"{text}" | "{text}" | {root} | {root}',
        f"around T/{leaf}": f"{lowest} BLOCK_EXPR | . BLOCK_EXPR | {before_leaf} | {after_leaf} | {back} | {on}",
        f"element_at T {token}": f"{token} INT_NUMBER",
        f"element_of_tree T/{leaf} {token}": f"{token} INT_NUMBER",
        "nodes T": f"{slot} BLOCK_EXPR | {slot} BLOCK_EXPR | {slot} BLOCK_EXPR | none | none",
        f"nodes T/{leaf}": "none | none | none | none | none",
        "children T": f"{', '.join(below)} | {below[0]} | {below[-1]} | {first} | {last}",
        f"tokens T/{token}": f"{before_leaf} | {after_leaf}",
        f"covering_element T {start} {start + 1}": f"{token} INT_NUMBER",
        "same_shape T T": "yes",
        "same_shape T U": "no",
        f"equal T/{leaf} T/{leaf}": "yes",
        f"equal T/{leaf} 8:T/{leaf}": "no",
        f"clone_subtree T/{leaf}": 'ok "3" of 1',
    }


def squares(nesting, depth):
    """Questions whose answers name each level."""
    before, after = NESTINGS[nesting]
    levels = [path((before, level)) for level in range(depth + 1)]
    blocks, leaf = [f"{at} BLOCK_EXPR" for at in levels[:-1]], f"{levels[-1]} LITERAL"
    opened = [line for level in range(depth) for line in [blocks[level], *[f"{path((before, level), (0, 1))} L_CURLY"] * before]]
    closed = [f"{path((before, level), (before + 1, 1))} R_CURLY" for level in reversed(range(depth))] if after else []
    every = [*opened, leaf, f"{path((before, depth), (0, 1))} INT_NUMBER", *closed]
    of_leaf = f'"LITERAL@{before * depth}..{before * depth + 1}\\n  INT_NUMBER@{before * depth}..{before * depth + 1} \\"3\\"\\n"'
    return {
        f"lineage T/{levels[-1]}": f"{', '.join([leaf, *reversed(blocks)])} | {of_leaf}",
        "lineage T": f". BLOCK_EXPR | {dumped(nesting, depth)}",
        "descendants T": f"{', '.join([*blocks, leaf])} | {', '.join(every)}",
        "descendants_of_kind T BLOCK_EXPR": ", ".join(blocks),
        "write_tree T": written(nesting, depth),
        "dump T": dumped(nesting, depth),
    }


def dumped(nesting, depth):
    """A line for each element, between quotes, with the bytes of its text."""
    before, after = NESTINGS[nesting]
    opened, closed = [], []
    for level in range(depth):
        indent, end = "  " * level, before * depth + 1 + after * (depth - level)
        opened.append(f"{indent}BLOCK_EXPR@{before * level}..{end}\\n")
        opened += [f'{indent}  L_CURLY@{level}..{level + 1} \\"{{\\"\\n'] * before
        closed += [f'{indent}  R_CURLY@{end - 1}..{end} \\"}}\\"\\n'] * after
    start, indent = before * depth, "  " * depth
    leaf = f'{indent}LITERAL@{start}..{start + 1}\\n{indent}  INT_NUMBER@{start}..{start + 1} \\"3\\"\\n'
    return '"' + "".join(opened) + leaf + "".join(reversed(closed)) + '"'


def written(nesting, depth):
    """The tree as an expression, between quotes."""
    before, after = NESTINGS[nesting]
    opening = "(BLOCK_EXPR " + 'L_CURLY\\"{\\" ' * before
    closing = ' R_CURLY\\"}\\"' * after + ")"
    return '"' + opening * depth + '(LITERAL INT_NUMBER\\"3\\")' + closing * depth + '"'


def steps(nesting, depth):
    """Edits at the bottom of a tree, or in a payload that is as deep."""
    before, after = NESTINGS[nesting]
    leaf, token = path((before, depth)), path((before, depth), (0, 1))
    start, length = before * depth, (before + after) * depth + 1
    text = "{" * start + "3" + "}" * (after * depth)
    tree = f"tree R nested {nesting} {depth} A3"
    copied = f"{tree} ; tree P nested {nesting} {depth} A3"
    replaced = f'{tree} ; tree W (LITERAL INT_NUMBER"22") ; new R ; replace R/{leaf} W'
    longer = extent(text.replace("3", "22"))
    same, shorter = extent(text), extent(text.replace("3", ""))
    return {
        f"{replaced} ; ? check ; ? finish ; changed": f"ok ; {longer} of 3 ; {leaf}",
        f"{replaced} ; plan ; ? run ; changed": f"{longer} of 3 ; {leaf}",
        f"{replaced} ; plan ; ? run_spliced ; changed": f"{longer} of 3 ; {leaf}",
        f"{replaced} ; plan ; built": f"ok {depth}",
        f"{replaced} ; plan ; ? default_order ; ? execute 0 ; changed": f"ok 0 ; {longer} of 3 ; {leaf}",
        f"{replaced} ; plan ; stepped ready 0 builds complete": f"ok {{0}} {depth} true",
        f"{replaced} ; plan ; ? finish_run 0 ; changed": f"{longer} of 3 ; {leaf}",
        f"{replaced} ; plan ; text_edits": f'ok {start}-{start + 1} "22"',
        f"{replaced} ; finish ; find_element R": f"{longer} of 3 at .",
        f"{tree} ; tree W X ; new R ; insert first R/{leaf} W ; insert last R W ; ? finish ; changed":
            f"{extent(text.replace('3', 'x3') + 'x')} of 3 ; {token} {before + after + 1}",
        f"{tree} ; new R ; delete R/{leaf} ; ? deleted R/{leaf} ; ? deleted R ; finish": f"true ; false ; {shorter} of 2",
        f"tree R L ; tree P nested {nesting} {depth} A3 ; new R ; add_annotation P/{leaf} ; insert last R P ; ? finish ; ? changed ; annotated":
            f"{extent('(1, 2)' + text)} of 3 ; 6 ; {path((6, 1), (before, depth))}",
        f"{copied} ; new R ; map R/{leaf} P/{leaf} ; map_all ; add_annotation R/{leaf} ; replace R P ; ? finish ; ? changed ; annotated":
            f"{same} of 3 ; . ; {leaf}",
        f"{tree} ; tree P nested {nesting} {depth + 1} A3 ; tree W X ; new R ; map R P/{before} ; map_all ; replace R P"
        f" ; insert first R/{leaf} W ; ? finish ; changed":
            f"{extent('{' * before + text.replace('3', 'x3') + '}' * after)} of 4 ; .",
        f"{copied} ; mapping ; map R/{leaf} P/{leaf} ; finish_builder ; ? place R/{leaf} P ; ? follow R/{token} ; follow R":
            f'ok {leaf} ; ok token "3" of 2 at {token} ; ok node {quoted(text)} of 1 at .',
        f"{tree} ; free_indent R 1": f"{same} of 2",
        f"{tree} ; indent R 1": f"{same} of 2",
        f"{tree} ; dedent R 1": f"{same} of 2",
        f"{tree} ; reset_indent R": f"{same} of 2",
        # A level is read back to the nearest newline, one token after another, and each is found from the root.
        f'tree R nested {nesting} {depth} (LITERAL WHITESPACE"\\n        " INT_NUMBER"3") ; ? from_node R/{leaf} ; from_token R/{path((before, depth), (1, 1))}':
            "ok 2 ; ok 2",
        f"{tree} ; new R ; ? wrap R/{leaf} BLOCK_EXPR round ; finish": f'ok "3" of 2 at 0 ; {same} of 3',
        f"{tree} ; new R ; remove_separated R/{leaf} COMMA ; finish": f"{shorter} of 2",
        f"{tree} ; new R ; delete R/{leaf} ; new R ; ? clashes_with ; ? merge ; finish": f"none ; ok ; {shorter} of 2",
    }


def quoted(text):
    return f'"{text}"'


def extent(text):
    """What a call answers that gives a node: its text, or how long that is."""
    return f"ok {quoted(text)}" if len(text) <= 60 else f"ok {len(text)} bytes"


def question_lines(name, nesting, depth, asked):
    """The lines of questions about the tree of this name, after its own."""
    lines = [f"tree {name} nested {nesting} {depth} A3", f"tree other_{name} nested {nesting} {depth} L"]
    for question, answer in asked.items():
        named = re.sub(r"\bT\b", name, re.sub(r"\bU\b", f"other_{name}", question))
        lines.append(f"? {named} = {answer}")
    return lines


def deep_rows(nesting, depth):
    lines = question_lines(f"{nesting}_{depth}", nesting, depth, questions(nesting, depth))
    return lines + [f"{nesting}: {taken} = {answer}" for taken, answer in steps(nesting, depth).items()]


def square_rows(nesting, depth):
    return question_lines(f"{nesting}_{depth}", nesting, depth, squares(nesting, depth))


def try_rows(run):
    """What goes wrong where the program reads these rows as a group of a table that is a part, to which no call owes a row."""
    path, name, lines, stack = run
    with tempfile.TemporaryDirectory() as room:
        with open(os.path.join(room, "deep.rows"), "w", encoding="utf-8") as rows:
            rows.write("\n".join([*lines, "end", ""]))
        done = subprocess.run(programs.limited(path, SECONDS, stack), cwd=room, input="growths are refused\ngroup deep\nend\n",
                              capture_output=True, text=True, env={}, check=False)
    if (done.returncode, done.stdout) == (0, "deep: as expected\n"):
        return None
    said = "\n".join(line[:300] for line in done.stdout.split("\n")[:40])
    return f"wrong: {name}, with {stack} KiB of stack: status {done.returncode}, it printed\n{said}"


def deep_wrong(deep, square=()):
    """What goes wrong with trees of each nesting, so deep and with so much stack, and where answers name each level. It is printed, too."""
    path = programs.program("test_rows")
    runs = [(path, f"{nesting}, {depth} deep", deep_rows(nesting, depth), stack) for depth, stack in deep for nesting in NESTINGS]
    runs += [(path, f"{nesting}, {depth} levels", square_rows(nesting, depth), stack) for depth, stack in square for nesting in NESTINGS]
    with ProcessPoolExecutor(RUNS, multiprocessing.get_context("fork")) as pool:
        wrong = [said for said in pool.map(try_rows, runs, chunksize=1) if said]
    asked = sum(len(lines) for _, _, lines, _ in runs)
    print(*wrong, f"hostile: {len(runs) - len(wrong)} of {len(runs)} runs of deep rows answer as expected, {asked} rows", sep="\n")
    return wrong


def scripts_wrong(damaged_alone):
    """What goes wrong with scripts: so many damaged ones alone, or, if that is None, all, and deep trees before the damaged ones."""
    Task.syned, Task.answers = programs.program("syned"), programs.program("plan_answers")
    Task.scripts = good_scripts()
    needed = needed_stack()
    Task.stack = needed + SPARE_STACK
    print(f"hostile: an edit below 200 levels needs {needed} KiB of stack; each run has {Task.stack}")
    with ProcessPoolExecutor(None, multiprocessing.get_context("fork")) as pool:
        if damaged_alone is not None:
            return damage(pool, damaged_alone)
        return rows(pool) or deep_wrong(DEEP, [SQUARE]) or damage(pool, DAMAGED)


def main(words):
    numbers = [int(word) for word in words[1:] if word.isdigit()]
    if not words or (words[0], len(words), len(numbers)) == ("damage", 2, 1):
        return bool(scripts_wrong(*numbers or [None]))
    if (words[0], len(words), len(numbers)) == ("deep", 3, 2):
        return bool(deep_wrong([tuple(numbers)]))
    print(__doc__)
    return 0 if words == ["--help"] else 2


if __name__ == "__main__":
    sys.exit(main(sys.argv[1:]))
