#!/usr/bin/env python3
"""Scripts with known answers, and whether the program `syned` gives these, each with the exit status that goes with it.

    known.py            runs them all
    known.py PART..     those of these parts: tables examples corpus lines explained ends_of_lines beginnings limits wide spaced wide_limits ends
    known.py quick      without proofs, if the gate has not built `syned`: those of tables, examples, wide and spaced, and every 24th of the corpus

tests/scripts has

    *.table             scripts with their answers
    bad_lines.txt       lines that are bad after three good ones, each in a script of its own
    bad_first_lines.txt, bad_ends.txt    lines that are bad as the first one, and after `finish`
    good_lines.txt      lines that change nothing
    explained.txt       scripts with their answers and what is said on the standard error
    wide.txt, spaced.txt  scripts for `syned wide` with their answers, some with what is said; it also has all scripts of the tables

tests/corpus has scripts whose answers another program made from the definitions, each NAME with its answer NAME.stdout, and examples has
NAME.script. A run has two seconds of processor time. The model in Python is compared with the same answers (tests/models.py)."""
import itertools
import multiprocessing
import os
import re
import subprocess
import sys
from concurrent.futures import ProcessPoolExecutor, ThreadPoolExecutor
from pathlib import Path
from typing import NamedTuple, Optional, Tuple

import programs

TESTS = Path(__file__).resolve().parent
LIMIT = 1048576
OPENING = '''tree A (ARG_LIST L_PAREN"(" (LITERAL INT_NUMBER"1") COMMA"," WHITESPACE" " (LITERAL INT_NUMBER"2") R_PAREN")")
edit R A
tree U (SOURCE_FILE UNDERSCORE"_")
'''
UNCHANGED = 'text "(1, 2)"\nchanged\n'
# After so many wrong answers the other scripts are not run.
MOST_WRONG = 20
# The word that asks for the wide dialect.
WIDE = ("wide",)
# Of the corpus, one script in so many is run where `syned` is not built.
SHARE = 24


def bad(line):
    return "bad script line %d\n" % line


def read(path):
    return Path(path).read_bytes()


def lines_of(name):
    """The lines of a file of tests/scripts, which may have carriage returns and tabs."""
    return read(TESTS / "scripts" / name).decode().split("\n")[:-1]


def rows(text):
    """The rows of a table: each has a name, a script, and parts with names."""
    for row in re.split(r"^== ", text, flags=re.M)[1:]:
        name, rest = row.split("\n", 1)
        script, *parts = re.split(r"^-- ", rest, flags=re.M)
        yield name, script, dict(part.split("\n", 1) for part in parts)


def tables():
    for path in sorted((TESTS / "scripts").glob("*.table")):
        for name, script, parts in rows(read(path).decode()):
            yield "%s: %s" % (path.name, name), script, parts["answer"].rstrip("\n") + "\n"


def examples():
    for script in sorted((TESTS.parent / "examples").glob("*.script")):
        yield "examples/" + script.name, read(script), read(script.with_suffix(".stdout"))


def corpus():
    for answer in sorted(TESTS.glob("corpus/*/*.stdout")):
        script = answer.with_suffix("")
        yield str(script.relative_to(TESTS.parent)), read(script), read(answer)


def lines():
    for line in lines_of("bad_lines.txt"):
        yield "bad line " + line, OPENING + line + "\nfinish\n", bad(4)
    for line in lines_of("bad_first_lines.txt"):
        yield "bad first line " + line, line + "\nfinish\n", bad(1)
    for line in lines_of("bad_ends.txt"):
        yield "after the end " + line, OPENING + "finish\n\n" + line + "\nno\n", bad(6)
    for line in lines_of("good_lines.txt"):
        yield "good line " + line, OPENING + line + "\nfinish\n", UNCHANGED


def explained():
    for name, script, parts in rows(read(TESTS / "scripts/explained.txt").decode()):
        yield name, re.sub(r"\n+", "\n", script), parts["answer"].rstrip("\n") + "\n", parts["says"].rstrip("\n")
    yield "a text that is not UTF-8", b"\377\n", bad(0), "the script is not UTF-8"


def ends_of_lines():
    """Lines that end by a carriage return, a last line without its newline, and bytes that are no text."""
    for end in ("finish", "finish\r", "finish \r\n", "finish\n\r\n# end\r"):
        yield "an end of a line", OPENING + end, UNCHANGED
    yield "no byte", "", bad(1)
    yield "one newline", "\n", bad(2)
    opening = OPENING.encode()
    for script in (opening + b"finish\n\377", b"no\n\300\200\n", opening + b"delete R\n# \377\n", b"# \355\240\200\n", b"# \303"):
        yield "no text", script, bad(0)


def beginnings():
    """A script cut after each of its bytes. What is cut off from a line leaves it bad, but for a whole line, for one that takes the root away,
    and for two that say less; then the next line is missing."""
    whole = OPENING + "replace R/1 U/0\nfinish\n"
    less = whole.split("\n") + ["replace R/1", "replace R/1 ", "replace R/1 U"]
    for size in range(len(whole)):
        cut = whole[:size].split("\n")
        cut = cut if cut[-1] else cut[:-1]
        if cut and cut[-1] == "finish":
            answer = 'text "(_, 2)"\nchanged 1\n'
        elif cut and cut[-1] == "replace R":
            answer = "refused RootReplacement\n"
        else:
            answer = bad(len(cut) + (not cut or cut[-1] in less))
        yield "the first %d bytes" % size, whole[:size], answer


def nested(count):
    return "tree A %s%s\nedit R A\nfinish\n" % ("(LITERAL " * count, ")" * count)


def all_replaced(text, count):
    return ('tree U (SOURCE_FILE %s)\ntree A (ARG_LIST%s)\nedit R A\n' % (text, "(ATTR)" * count)
            + "".join("replace R/%d U/0\n" % slot for slot in range(count)) + "finish\n")


def limits():
    """The limits of a script, open parentheses and bytes, long answers and one that would have 2^32 bytes, and many calls."""
    empty = 'text ""\nchanged\n'
    yield "200 parentheses", nested(200), empty
    yield "201 parentheses", nested(201), bad(1)
    yield "1000 parentheses, few of them at once", "tree A (ARG_LIST%s)\nedit R A\nfinish\n" % ("(ATTR)" * 1000), empty
    many = OPENING + "".join('tree T%d (LITERAL INT_NUMBER"1")\n' % tree for tree in range(28000)) + "replace R/1 T27999/0\nfinish\n#"
    longest = many + " " * (LIMIT - len(many))
    yield "a script of the greatest length", longest, 'text "(1, 2)"\nchanged 1\n'
    yield "one byte more", longest + " ", bad(0)
    yield "eight times as many bytes", b"\0" * (8 * LIMIT), bad(0)
    slashes = "\\" * (LIMIT - 50)
    yield "a text of backslashes", 'tree A (LITERAL COMMENT"%s")\nedit R A\nfinish\n' % slashes, 'text "%s"\nchanged\n' % slashes
    yield ("a thousand replaced elements", all_replaced('UNDERSCORE"_"', 1000),
           'text "%s"\nchanged %s\n' % ("_" * 1000, " ".join(map(str, range(1000)))))
    yield "a text that gets too long", all_replaced('IDENT"%s"' % ("a" * 262144), 16384), "refused TooLong\n"
    slots = range(12000)
    yield ("many replacements and deletions", "tree A (ARG_LIST%s)\nedit R A\n" % ("(ATTR)" * 12000)
           + "".join("replace R/%d R\n" % slot for slot in slots) + "".join("delete R/%d\n" % slot for slot in slots), bad(24003))


def wide_table(table):
    for name, script, parts in rows(read(TESTS / f"scripts/{table}.txt").decode()):
        says = parts["says"].rstrip("\n") if "says" in parts else None
        yield f"{table}: {name}", re.sub(r"\n+", "\n", script), parts["answer"].rstrip("\n") + "\n", says, WIDE


def spaced():
    """Scripts of the wide dialect with whitespace that the editor chooses."""
    yield from wide_table("spaced")


def wide():
    """Scripts of the wide dialect; those of the other one mean the same in it."""
    yield from wide_table("wide")
    for name, script, answer in tables():
        yield "wide: " + name, script, answer, None, WIDE


def wide_limits():
    """What is past the limits of the other dialect: parentheses and bytes."""
    empty = 'text ""\nchanged\n'
    for count in (201, 100_000):
        yield "wide: %d parentheses" % count, nested(count), empty, None, WIDE
    count = 200_000
    many = "tree A (ARG_LIST%s)\nedit R A\ndelete R/%d\nfinish\n" % (' COMMA","' * count, count - 1)
    yield "wide: a script of two megabytes", many, 'text "%s"\nchanged\n' % ("," * (count - 1)), None, WIDE
    yield "wide: eight megabytes that are no line", b"\0" * (8 * LIMIT), bad(1), None, WIDE


PARTS = {it.__name__: it for it in (tables, examples, corpus, lines, explained, ends_of_lines, beginnings, limits, wide, spaced, wide_limits)}


class Known(NamedTuple):
    """A script, its answer, the sentence on the standard error, where that is known, and the words after `syned`. What is None is not looked at."""

    name: str
    script: bytes
    answer: bytes
    sentence: Optional[str] = None
    words: Tuple[str, ...] = ()

    @property
    def status(self):
        return status_of(self.answer)


def known(*parts):
    """The scripts of these parts, or of all."""
    for part in parts or PARTS:
        for name, *texts in PARTS[part]():
            script, answer = (text if isinstance(text, bytes) else text.encode() for text in texts[:2])
            yield Known(name, script, answer, *texts[2:])


def status_of(answer):
    """The exit status that goes with an answer, 3 where there is none."""
    return {b"text": 0, b"refu": 1, b"bad ": 2}.get(answer[:4], 3)


def run(arguments, **streams):
    """The exit status of `syned`, what it printed, and the sentences that it said."""
    streams = {"stdout": subprocess.PIPE, "stderr": subprocess.PIPE, **streams}
    done = subprocess.run([*programs.limited(programs.path_of("syned"), 2), *arguments], timeout=60, check=False, **streams)
    return done.returncode, done.stdout or b"", [line for line in done.stderr.decode(errors="replace").split("\n") if line]


def difference(case):
    """What is wrong with what `syned` says of a script, None if nothing is: a sentence goes with no edit, and none with an edit."""
    try:
        status, out, said = run(case.words, input=case.script)
    except subprocess.TimeoutExpired:
        return "it does not end"
    if (status, out) != (case.status, case.answer):
        return "status %d, and it printed %r; wanted are %d and %r" % (status, out[:300], case.status, case.answer[:300])
    if len(said) != (status > 0) or case.sentence not in (None, *said):
        return "it said %r; wanted is %r" % (said, case.sentence or status)
    return None


def wrong_ends():
    """What is wrong with runs that have an argument, a reader that fails at its first read, and a writer that is full."""
    reads, writes = os.pipe()
    os.write(writes, b"left\n")
    os.close(writes)
    status, out, said = run(["--help"], stdin=reads)
    left = os.read(reads, 100)
    if (status, out, left) != (2, b"", b"left\n") or not any("syned < SCRIPT" in line for line in said):
        yield "an argument: status %d, it printed %r, said %r and left %r" % (status, out, said, left)
    folder, full = os.open("/", os.O_RDONLY), os.open("/dev/full", os.O_WRONLY)
    unread, unwritten = run([], stdin=folder), run([], input=OPENING.encode() + b"finish\n", stdout=full)
    for found, sentence in ((unread, "the script could not be read"), (unwritten, "the answer could not be written")):
        if found != (3, b"", [sentence]):
            yield "%s is wanted: status %d, it printed %r and said %r" % (sentence, *found)
    for descriptor in (reads, folder, full):
        os.close(descriptor)


def all_right(parts):
    """Runs the scripts of these parts side by side, and says which answers are wrong."""
    programs.program("syned")
    cases = list(known(*(part for part in parts if part != "ends")))
    wrong = list(wrong_ends()) if "ends" in parts or not parts else []
    ran = len(cases) + 3 * ("ends" in parts or not parts)
    with ProcessPoolExecutor(None, multiprocessing.get_context("fork")) as pool:
        for case, found in zip(cases, pool.map(difference, cases, chunksize=16)):
            wrong += ["%s: %s" % (case.name, found)] if found else []
            if len(wrong) >= MOST_WRONG:
                sys.exit("\n".join(["wrong: " + it for it in wrong] + ["scripts: twenty wrong answers, so the others were not run"]))
    print(*("wrong: " + it for it in wrong), "scripts: %d of %d answers as expected" % (ran - len(wrong), ran), sep="\n")
    return ran > 0 and not wrong


def tried(cases):
    """What `rt try` says of these scripts, which are of one dialect, and the names of those that end as expected."""
    words = next(iter(cases.values())).words
    said = programs.try_cases("syned", {name: (case.script, case.answer) for name, case in cases.items()}, words=words)
    ended = re.findall(r"^case=(.*) run=ended status=(\d+) .*output=expected", said, re.M)
    return said, {name for name, status in ended if name in cases and int(status) == cases[name].status}


def quick():
    """Runs a share of the scripts without proofs, in parts side by side: one of the wide dialect, and two of the other."""
    if programs.is_built("syned"):
        return all_right([])
    chosen = [*known("tables", "examples", "wide", "spaced"), *itertools.islice(known("corpus"), 0, None, SHARE)]
    cases = {case.name.replace("/", " "): case for case in chosen}
    names = sorted(name for name, case in cases.items() if not case.words)
    shares = [names[::2], names[1::2], [name for name, case in cases.items() if case.words]]
    with ThreadPoolExecutor(2) as pool:
        parts = list(pool.map(tried, [{name: cases[name] for name in share} for share in shares]))
    good = set().union(*(names for _, names in parts))
    for name in sorted(cases.keys() - good)[:10]:
        print("wrong: " + name)
    print("scripts: %d of %d scripts as expected" % (len(good), len(cases)))
    if len(good) < len(cases):
        print(*[line for said, _ in parts for line in said.splitlines() if "output=expected" not in line][-10:], sep="\n")
    return bool(cases) and len(good) == len(cases)


def main(words):
    if not set(words) <= {*PARTS, "ends"} and words != ["quick"]:
        print(__doc__)
        return 0 if words == ["--help"] else 2
    return not (quick() if words == ["quick"] else all_right(words))


if __name__ == "__main__":
    sys.exit(main(sys.argv[1:]))
