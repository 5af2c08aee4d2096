#!/usr/bin/env python3
"""The table of rows of `test_rows` (docs/ROWS.md): its answers, and what it does where memory is refused.

    rows.py            all rows, and tables that are wrong, which it has to notice; without proofs, if the gate has not built the program
    rows.py refused    each row, and the program `syned` on ten scripts, with the first, second and each further allocation made to fail
    rows.py growths    how many allocations an edit of a small and of a large tree makes

The kit's own way to make an allocation fail takes one number a run and compiles the program anew for each, so here a small library, built of
refuse_growth.c, is loaded before the C library."""
import os
import re
import shutil
import subprocess
import sys
import tempfile
from pathlib import Path

import known
import programs
from api import calls_of, given, libraries, surface_names, texts

ROOT = Path(__file__).resolve().parent.parent
CRATE = ROOT / "crates/test_rows"
MOST_LINES = 400
# After so many wrong rows the others are not run.
MOST_WRONG = 20
# The first line of a table that owes no row.
PART = "growths are refused\n"


# The files of rows.


def groups():
    """The names of the groups, in the order in which the program reads them."""
    return re.findall(r"^group (\S+)$", (CRATE / "stdin").read_text(), re.M)


def lines_of(group):
    """The lines of a group's file, without blank ones, comments and its end, which must be there."""
    text = (CRATE / f"data/{group}.rows").read_text()
    if not text.endswith("\nend\n"):
        raise SystemExit(f"{group}.rows: its last line is not `end`")
    return [line for line in text.split("\n")[:-2] if line and not line.startswith("#")]


def rows():
    """Each row, with the lines of the trees that it names. Each group has a row or a tree."""
    trees = {}
    for group in groups():
        lines = lines_of(group)
        if not lines:
            raise SystemExit(f"{group}.rows: has no row")
        for line in lines:
            tree = re.match(r"tree (\S+) ", line)
            if tree:
                trees[tree.group(1)] = line
                continue
            words = set(re.split(r"[\s/:]+", line))
            yield line, [trees[name] for name in sorted(words & trees.keys())]


def wrong_files():
    """What is wrong with the files: one that is read for no group or for several, that is too long, or whose group docs/ROWS.md lacks."""
    named, wrong = groups(), []
    files = {path.name: path for path in CRATE.glob("data/*")}
    for name in sorted(files.keys() | {f"{group}.rows" for group in named}):
        times = named.count(name.removesuffix(".rows")) if name.endswith(".rows") else 0
        if name not in files:
            wrong.append(f"crates/test_rows/stdin: names crates/test_rows/data/{name}, which is not there")
        elif times != 1:
            wrong.append(f"crates/test_rows/data/{name}: crates/test_rows/stdin names it {times} times")
        elif files[name].read_text().count("\n") > MOST_LINES:
            wrong.append(f"crates/test_rows/data/{name}: has more than {MOST_LINES} lines")
    page = (ROOT / "docs/ROWS.md").read_text()
    return wrong + [f"docs/ROWS.md: does not name the group {group}" for group in named if f"`{group}`" not in page]


# All rows, and wrong tables.

GOOD = "? kind_name 4 = COMMA\n"
NO_END = "its last line is not `end`"
# Files that no group may be, and tables that are wrong, each with the line where the program has to notice it, and what it has to say.
# A part of a table owes no pairs.
WRONG_FILES = {"empty.rows": "", "without_end.rows": GOOD, "without_rows.rows": "# No row.\nend\n", "nested.rows": "group kinds\nend\n"}
WRONG_TABLES = {
    "empty": (PART, "the table", NO_END),
    "cut off": (PART + GOOD, "the table", NO_END),
    "cut off in its last line": (PART + GOOD + "en", "en", "the line is malformed"),
    "without a row": (PART + "end\n", "end", "the file has no row"),
    "that goes on": (PART + GOOD + "end\n" + GOOD, GOOD.strip(), "the file goes on after its end"),
    "with another answer": (PART + "? kind_name 4 = COLON\nend\n", "? kind_name 4 = COLON", "COMMA"),
    "with the answer that it must not be": (PART + "? kind_name 4 != COMMA\nend\n", "? kind_name 4 != COMMA", "COMMA"),
    "with a question that no one knows": (PART + "? kind 4 = A\nend\n", "? kind 4 = A", "UnknownRow"),
    "with a malformed row": (PART + "kind_name 4\nend\n", "kind_name 4", "the line is malformed"),
    "with an empty group": (PART + "group empty\nend\n", "empty", NO_END),
    "with a group that is cut off": (PART + "group without_end\nend\n", "without_end", NO_END),
    "with a group without rows": (PART + "group without_rows\nend\n", "end", "the file has no row"),
    "with a group in a group": (PART + "group nested\nend\n", "group kinds", "a group names a group"),
    "with a group that is not there": (PART + "group missing\nend\n", "group missing", ""),
    "with a pair that has no row": ("owes next TreeIds::next ok none\n" + GOOD + "end\n", "no row: next answers ok", None),
}


def tables():
    """The tables that the program is run on, each with its status and how what it prints begins: the table, and those that are wrong."""
    found = {"table": ((CRATE / "stdin").read_text(), 0, (CRATE / "stdout").read_text())}
    for name, (table, line, why) in WRONG_TABLES.items():
        found[f"table {name}"] = (table, 1, f"{line}\n" if why is None else f"{line}\n    but: {why}")
    return found


def answers_to_tables(found, folder):
    """The status and the output of the program for each of the tables, by name, and what else is said."""
    if not programs.is_built("test_rows"):
        data = [word for file in sorted(folder.iterdir()) for word in ("--data", f"{file.name}={file}")]
        said = programs.try_cases("test_rows", {name: (table, None) for name, (table, *_) in found.items()}, *data)
        ended = re.findall(r"^== (.*)\n((?s:.*?))^case=\1 run=ended status=(\d+) ", said, re.M)
        return {name: (int(status), out) for name, out, status in ended}, said
    answers, said = {}, ""
    for name, (table, *_) in found.items():
        done = subprocess.run([programs.path_of("test_rows")], cwd=folder, input=table, capture_output=True, text=True, check=False)
        answers[name] = (done.returncode, done.stdout)
        said += done.stderr
    return answers, said


def all_answer():
    """Whether all rows answer as expected, and the program notices each wrong table."""
    found = tables()
    with tempfile.TemporaryDirectory() as room:
        folder = Path(shutil.copytree(CRATE / "data", f"{room}/data"))
        for file, text in WRONG_FILES.items():
            (folder / file).write_text(text)
        answers, said = answers_to_tables(found, folder)
    _, wanted_status, wanted = found.pop("table")
    status, out = answers.get("table", (None, ""))
    print(out, end="")
    if (status, out) != (wanted_status, wanted):
        print(f"rows: wrong; status {status}; wanted:\n{wanted}", end="")
        print(*said.splitlines()[-5:], sep="\n")
        return False
    missed = [name for name, (_, status, begin) in found.items() if answers.get(name, (None, ""))[0] != status or not answers[name][1].startswith(begin)]
    for name in missed:
        print(f"rows: no answer as expected to a {name}: {answers.get(name)}")
    print(f"rows: {len(found) - len(missed)} of {len(found)} wrong tables are noticed")
    return not missed


# Allocations that fail. A row is a table of its own, which begins with the line `growths are refused` and the trees that the row names. Each of
# its runs must answer as expected or end because memory runs out; then everything that a refused call must leave as it was is compared.

# Calls that no row can show to be refused. The sharing of a tree is a count, and the path of a root is empty.
EXCEPT = {
    "GreenToken::share": "asks for nothing",
    "GreenElementRef::share": "asks for nothing",
    "GreenElement::share": "asks for nothing",
    "GreenNode::share": "asks for nothing",
    "SyntaxElement::green": "shares a tree",
    "SyntaxNode::green": "shares a tree",
    "SyntaxToken::green": "shares a tree",
    "SyntaxElement::tree_top": "shares a tree, for a root",
    "SyntaxNode::tree_top": "shares a tree, for a root",
    "SyntaxToken::tree_top": "shares a tree, for a root",
    "SyntaxNode::new_root": "shares a tree, for a root",
    "SyntaxNode::clone_subtree": "shares a tree, for a root",
    "SyntaxEditor::new": "shares a tree, for roots",
    "SyntaxNode::element_of_tree": "takes the path over, and shares a tree",
    "SyntaxMapping::new": "keeps the allocator, and asks for nothing",
    "SyntaxMappingBuilder::new": "keeps the allocator, and asks for nothing",
    "SyntaxFactory::with_mappings": "keeps the allocator, and asks for nothing",
    "SyntaxFactory::without_mappings": "asks for nothing",
    "OnePassEngine::new": "asks for nothing",
    "OnePassEngine::starting_at": "asks for nothing",
    "SpliceEngine::new": "asks for nothing",
    "EditChain::new": "keeps the allocator, and asks for nothing",
    "SyntaxEdit::registrations": "is what `NextEdit::next_editor` registers",
    "KindNames::new": "keeps the allocator, and asks for nothing",
    "Language::new": "keeps the allocator, and asks for nothing",
    "read_line_tree_with": "is all of `read_line_tree`, with names and a limit",
    "run_explained_for": "is the whole of the program `syned`, which is run here with each allocation made to fail",
    "run_explained": "is that of the dialect `Syned`",
    "run_for": "is `run_explained_for` without the sentence",
    "run": "is that of the dialect `Syned`",
    "explain_for": "makes the sentence of `run_explained_for`",
    "explain": "is that of the dialect `Syned`",
    "Stopped::explanation": "makes it for a script that ended",
    "answer_into": "is a call for other languages, which bindings/test.sh makes with each allocation made to fail",
    "answer_into_for": "is `answer_into` in any dialect",
    "explain_into": "is such a call, too",
    "explain_into_for": "is `explain_into` in any dialect",
    "carry_out_for": "is what `run_for` carries a script out by",
    "carry_out": "is that of the dialect `Syned`",
    "read_line": "is what `carry_out_for` reads a line by",
    "record_script": "is for tests alone; it records by the calls that `carry_out` makes",
}
# Scripts of which `syned` must print all of its answer, or nothing and end with status 3. The last one has seven changes carried out in an
# order, some of them in what two others bring.
SCRIPTS = [
    "edits.table: one token for a literal",
    "owners.table: inserts move into a wrapped block",
    "notes.table: notes of a name and of its use in a wrapped value",
    "changes.table: an insert before a range",
    "changes.table: two ranges that meet",
    "orders.table: inserts into a wrapped block by 1 0 2",
    "orders.table: inserts into a wrapped block by 0 2 1",
    "words.table: every word",
    "bad.table: a line after the end",
    "tests/corpus/orders/388",
]
MOST_GROWTHS = 5000


def owed_calls():
    """The calls that take an allocator: those that a user can name, and those below the surface with their crates."""
    names = surface_names()
    owed, below = set(), set()
    for crate in libraries():
        for call in calls_of(crate):
            if not call.takes_allocator():
                continue
            if call.owner in names:
                owed.add(call.name)
            elif call.owner in given(crate):
                below.add((crate, call.name))
    return owed, below


def is_called_above(crate, name):
    word = re.compile(rf"\b{name.split('::')[-1]}\(")
    return any(word.search(text) for other in libraries() if other != crate for _, text in texts(other))


def beside(tokens):
    """A row: how many nodes a replacement in a list builds, whose other element has so many tokens."""
    literal = "(LITERAL" + ' INT_NUMBER"2"' * tokens + ")"
    tree = f'(ARG_LIST L_PAREN"(" (LITERAL INT_NUMBER"1") COMMA"," {literal} R_PAREN")")'
    return f"a replacement beside {tokens} tokens: tree R {tree} ; tree U U ; new R ; replace R/1 U/0 ; plan ; built = ok 1"


def refuse_each(library, line, trees, table):
    """The status and the output of the runs of a row with each allocation made to fail."""
    table.seek(0)
    table.truncate()
    table.write("\n".join([PART.strip(), *trees, line, "end", ""]))
    table.flush()
    table.seek(0)
    environment = {"LD_PRELOAD": library, "REFUSE_EACH": "1"}
    done = subprocess.run([programs.path_of("test_rows")], stdin=table, capture_output=True, env=environment, timeout=600, check=False)
    return done.returncode, done.stdout.decode(errors="replace")


def refused_rows(library):
    """The calls that were refused in the runs of all rows, and of two that are too long for a table: the untouched part of a tree has a
    thousand tokens, or none."""
    refused, wrong, ran, growths = set(), 0, 0, 0
    names = dict(re.findall(r"^owes (\S+) (\S+) ", (CRATE / "stdin").read_text(), re.M))
    with tempfile.TemporaryFile("w+", encoding="utf-8", newline="\n") as table:
        for line, trees in [(beside(0), []), (beside(1000), []), *rows()]:
            status, out = refuse_each(library, line, trees, table)
            count = re.search(r"^growths: (\d+)\n\Z", out, re.M)
            ran += 1
            refused.update(names.get(call, call) for call in re.findall(r"^Memory: (\S+)$", out, re.M))
            if status == 0 and count:
                growths += int(count.group(1))
            else:
                wrong += 1
                said = [it for it in out.split("\n") if not it.startswith("Memory: ")]
                print(line, *said, sep="\n    ")
            if wrong == MOST_WRONG:
                sys.exit("test_rows: twenty wrong rows, so the others were not run")
    print(f"test_rows: {ran} rows, {growths} failed allocations, {wrong} rows wrong")
    if growths == 0:
        sys.exit("test_rows: no allocation was made to fail")
    return refused, wrong


def wrong_calls(refused):
    """What is wrong with the calls that were refused: each public call that takes an allocator, of all libraries of crates.txt, must be, but
    for those of EXCEPT, and for calls that no user can name. Each of these must be called by a crate above its own, so that it is refused
    below some call that is named."""
    owed, below = owed_calls()
    told = f"{len(owed & refused)} of {len(owed)} calls that take an allocator were refused, {len(EXCEPT)} need no row"
    print(f"{told}; {len(below)} more stand below them")
    return [
        *(f"no such call: {name}" for name in sorted(EXCEPT.keys() - owed)),
        *(f"refused, and needs a row: {name}" for name in sorted(EXCEPT.keys() & refused)),
        *(f"never refused: {name}" for name in sorted(owed - refused - EXCEPT.keys())),
        *(f"below the surface, and called by no crate above: {crate}: {name}" for crate, name in sorted(below) if not is_called_above(crate, name)),
    ]


def wrong_script(library, case):
    """What is wrong with the runs of `syned` on a script with each allocation made to fail. Where room to spare was refused, a list may still
    get the room that it needs; then the answer is the whole one."""
    whole = (case.status, case.answer)
    for growth in range(1, MOST_GROWTHS + 1):
        environment = {"LD_PRELOAD": library, "REFUSE_GROWTH": str(growth)}
        done = subprocess.run([programs.path_of("syned")], input=case.script, capture_output=True, env=environment, timeout=20, check=False)
        is_refused, found = b"growth refused\n" in done.stderr, (done.returncode, done.stdout)
        if found != whole and not (is_refused and found == (3, b"")):
            return f"{case.name}: with allocation {growth} failed: status {found[0]}, it printed {found[1][:300]!r}"
        if not is_refused:
            print(f"syned on {case.name}: failed allocations: {growth - 1}, each answered")
            return None if growth > 1 else f"{case.name}: no allocation was made to fail"
    return f"{case.name}: more than {MOST_GROWTHS} allocations"


def all_refused(library):
    """Whether each row and script does what it has to, with each allocation made to fail."""
    programs.program("test_rows"), programs.program("syned")
    refused, wrong_rows = refused_rows(library)
    scripts = {case.name: case for case in known.known("tables", "corpus")}
    wrong = [*wrong_calls(refused), *filter(None, (wrong_script(library, scripts[name]) for name in SCRIPTS))]
    print(*(f"wrong: {it}\n" for it in wrong), sep="", end="")
    return not wrong and not wrong_rows


# How many allocations edits make. As many for a tree of some 2,000 nodes as for one of some 60 of the same depth, or for a list with 1,000 tokens
# more, since what stays is shared. The engine of splices must make more than that of one pass. The program makes the steps of each row with
# the last one and without it; the difference is what that one allocates.

LISTS = [
    ("new R", "finish", 0),
    ("new R ; delete R/0/1", "finish", 0),
    ("new R ; delete R/LAST/4", "finish", 0),
    ("new R ; insert first R R/0/1", "finish", 0),
    ("new R ; insert after R/LAST/5 R/0/1", "finish", 0),
    # Of each engine and of a run with its steps, over trees that differ in nodes which nothing touches. A splice copies the list of the root's
    # children, whose room grows six times more for 666 lists than for 20.
    *(
        (f"new R ; {change} ; plan", step, more)
        for change in ("replace R/0/1 R/0/4", "replace R/LAST/4 R/0/1")
        for step, more in (("run", 0), ("run_spliced", 6), ("stepped 0", 6))
    ),
    ("numbers 2", "free_indent R 1", 0),
]
# Over lists that differ in tokens.
TOKENS = [
    *(("tree U U ; new R ; replace R/1 U/0 ; plan", step) for step in ("run", "run_spliced", "stepped 0")),
    *(("tree X X ; new R ; insert first R/1 X/0 ; replace R/1 R/1 ; plan", step) for step in ("run", "run_spliced", "stepped 0 1")),
]
# The engine of splices makes the nodes of each step, and then the walk of the other engine for the paths. So of changes whose steps build so
# many nodes it makes as many allocations more at least.
SPLICED = [
    ("new R ; replace R/0/1 R/0/4 ; plan", 2),
    ("new R ; replace R/0/1 R/0/4 ; replace R/3/1 R/0/4 ; replace R/5/1 R/0/4 ; plan", 6),
]


def growths(library, steps):
    """How many allocations a run of these steps makes. Each step must succeed."""
    environment = {"LD_PRELOAD": library, "COUNT_GROWTHS": "1"}
    table = f"growths: {steps} = not asked\nend\n"
    done = subprocess.run([programs.path_of("test_rows")], input=table, capture_output=True, text=True, env=environment, timeout=20, check=False)
    count = re.search(r"^growths (\d+)$", done.stderr, re.M)
    if "but: ok" not in done.stdout or not count:
        sys.exit(f"growths: not done: {steps[:300]}\n{done.stdout[:300]}{done.stderr[:300]}")
    return int(count.group(1))


def asked(library, tree, before, last):
    """How many allocations the last step makes on a tree, after these steps."""
    return growths(library, f"tree R {tree} ; {before} ; {last}") - growths(library, f"tree R {tree} ; {before}")


def wide(lists, steps):
    """A tree of so many lists, and the steps on it."""
    return f"wide {lists} L", steps.replace("LAST", str(lists - 1))


def list_of(tokens):
    """A list whose last literal has so many tokens. Its whitespace is long, so that an answer has the length of its text and not the text."""
    spaced = f'WHITESPACE"{" " * 120}" (LITERAL' + ' INT_NUMBER"2"' * tokens
    return f'(ARG_LIST L_PAREN"(" (LITERAL INT_NUMBER"1") COMMA"," {spaced}) R_PAREN")")'


def all_as_many(library):
    """Whether each edit makes as many allocations as it has to."""
    programs.program("test_rows")
    compared = [(before, last, *(asked(library, *wide(lists, before), last) for lists in (20, 666)), more) for before, last, more in LISTS]
    compared += [(before, last, *(asked(library, list_of(tokens), before, last) for tokens in (1, 1001)), 0) for before, last in TOKENS]
    wrong = 0
    for before, last, small, large, more in compared:
        is_right = 0 < small <= large <= small + more
        wrong += not is_right
        print(f"{'' if is_right else 'wrong: '}{before} ; {last}: {small} allocations, and {large}")
    for before, built in SPLICED:
        one, spliced = (asked(library, "wide 20 L", before, step) for step in ("run", "run_spliced"))
        wrong += spliced < one + built
        print(f"{'wrong: ' if spliced < one + built else ''}{before}: {one} allocations in one pass, {spliced} by splices")
    count = len(compared) + len(SPLICED)
    print(f"growths: {count - wrong} of {count} comparisons as expected")
    return wrong == 0


def main(words):
    with tempfile.TemporaryDirectory() as room:
        checks = {(): all_answer, ("refused",): all_refused, ("growths",): all_as_many}
        if tuple(words) not in checks:
            print(__doc__)
            return 0 if words == ["--help"] else 2
        if not words:
            return not all_answer()
        library = f"{room}/refuse.so"
        build = [os.environ.get("CC", "cc"), "-O1", "-shared", "-fPIC", "-o", library, ROOT / "tests/refuse_growth.c", "-ldl"]
        subprocess.run(build, check=True)
        return not checks[tuple(words)](library)


if __name__ == "__main__":
    sys.exit(main(sys.argv[1:]))
