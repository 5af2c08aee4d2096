#!/usr/bin/env python3
"""The model of scripts (tests/model.py) against all that is known, and the editor against the model, line by line.

    models.py                 what the editor says of all scripts of tests/scripts/*.table, tests/corpus and examples, of random ones, and of
                              pairs of single changes, against what the model says
    models.py quick           every 24th of them, without proofs, if the gate has not built `plan_answers`
    models.py named WORD..    those of them whose names contain one of these words
    models.py known           the model against every known answer (tests/known.py), the laws of the definitions, and the worked examples of
                              tests/scripts/model_examples.txt
    models.py bugs [WORD..]   breaks the model in each of 45 ways, or in those whose names contain one of these words: what `known` compares has
                              to notice each, and a model that only fails is not noticed
    models.py bugs random SEED COUNT   how many of these ways show on so many random scripts
    models.py answer FILE..   all that the model says of the scripts in these files, in the format below
    models.py batch FILE..    these scripts with the orders to try, as the program `plan_answers` reads them

The program `plan_answers` prints what the editor says: the answer, the text edits, the edit by each engine and in each order that is tried,
and the tree after each step. It is counted how much was equal; no count may be 0. The format of `answer`, line by line; `plan_answers` prints
the same for the same batch, but for the lines `place`, for which the editor has no call.

    script NAME               begins what is said of one script
    status N                  the exit status of `syned`
    > LINE                    each line that it prints. No more is said of a script without a plan, or whose new text is too long
    fate LINE                 each line of the text of the plan
    shown N "TEXT"            each change as a plain text
    place N PATH              for each change that has a stage: the place of its target in its payload, or `none`
    cut FIRST STOP "TEXT"     each text edit, from left to right
    lines LINE COLUMN WIDE .. for each text edit: the line and column of its start in the old text and the column in units of UTF-16, and those of its end
    makes "TEXT"              the text that they make of the old one
    back FIRST STOP "TEXT"    each edit that takes them back
    trim FIRST STOP "TEXT"    each of them without what it leaves as it was
    cursor A FIRST STOP: N FIRST STOP   for each element that is found for annotation A, in order: its range in the new text, and the text edit
                              whose text has it, with the range in that text, or `none`
    engine ENGINE             for each engine, first `one_pass`, then `splice`: the edit that it makes, in these lines
    tree EXPRESSION             the new tree
    changed PATH ..             the changed elements
    found A PATH ..             for each annotation that something is registered with, the least first: its elements
    built N                   how many nodes the one pass builds
    stand PATH PATH           for each node of the old tree that is found again, in document order: its path and that of its stand-in
    default N ..              the default order
    try N ..: VERDICT         for each order to try: why it is refused; or `allowed`, and then the edit that it makes
    walk N ..                 for each order to walk: the state after 0, 1, .. all of its steps, in these lines
    at N ..: M ..               the changes that are done, the least first, and those that may be the next one
    built N                     how many nodes the steps built
    tree EXPRESSION             the tree
    payload N EXPRESSION        for each change that has a stage: its payload
    finish                    after the last step, and then the edit that the run makes
    end                       ends the script

A batch has for each script `script NAME`, its lines, each after `> `, the orders in lines `try N ..` and then `walk N ..`, and `end`. A file
that begins with the word `script` is read as a batch, of which the orders are left out; any other file is one script.
"""
import collections
import itertools
import multiprocessing
import re
import subprocess
import sys
import types
from pathlib import Path

import generate
import known
import model
import programs

ROOT = Path(__file__).resolve().parent.parent
ENGINES = ("one_pass", "splice")
SEED, RANDOM = "models", 1000
# Of all scripts, one in so many is compared where `plan_answers` is not built.
SHARE = 24
# How many bytes a run of the program prints: no more than `rt try` takes of one. After so many wrong answers the others are not asked for.
MOST_PRINTED, MOST_WRONG = 1_000_000, 20


# What the model says of a script, and the batches that `plan_answers` reads.


def orders(model, plan, of_script):
    """The orders to try, and those of them to walk: the default one, two more and that of the script, and all orders of up to three changes.
    Tried are also some with two neighbours swapped, and some lists that lack a change or have one too many."""
    if "orders" in plan.kept:
        return plan.kept["orders"]
    changes, default = model.undropped(plan), model.IsDefaultOrder(plan)
    walked = [default, generate.ready_order(model, plan, min), generate.ready_order(model, plan, max)] + ([of_script] if of_script is not None else [])
    if len(changes) <= 3:
        walked += map(list, itertools.permutations(changes))
    swapped = [default[:place] + default[place:place + 2][::-1] + default[place + 2:] for place in range(len(default) - 1)]
    all_numbers = list(range(len(plan.changes)))
    others = [changes, default[::-1], default[1:], default + default[:1], all_numbers, default + [len(plan.changes)]]
    tried = [list(order) for order in dict.fromkeys(map(tuple, walked + swapped + others))]
    plan.kept["orders"] = tried, [order for order in tried if order in walked and model.IsAllowed(plan, order)]
    return plan.kept["orders"]


def edit_lines(model, plan):
    """The edit that a plan makes."""
    annotations = sorted({annotation for annotation, _ in plan.registrations})
    return (["tree " + expression(model, model.new_tree(plan)), "changed" + model.places_text(plan, model.changed(plan))]
            + ["found %d%s" % (annotation, model.places_text(plan, model.found_for(plan, annotation))) for annotation in annotations])


def expression(model, origins):
    return model.tree_text(model.plain(origins)).decode()


def quoted(model, text):
    return '"' + model.escaped(text).decode() + '"'


def state_lines(model, plan, done):
    """The tree and the payloads where these changes are done."""
    numbers = range(len(plan.changes))
    ready = generate.spaced(number for number in numbers if model.is_ready(plan, done, number))
    return ["at%s:%s" % (generate.spaced(done), ready), "built %d" % sum(model.way_length(plan, number) for number in done),
            "tree " + expression(model, model.stage_tree(plan, done)),
            *("payload %d %s" % (number, expression(model, model.stage_payload(plan, number, done)))
              for number in numbers if model.has_stage(plan, number))]


def walk_lines(model, plan, order, edit, states):
    """The state after each step of an order. What was said of a state is kept."""
    lines = ["walk" + generate.spaced(order)]
    for steps in range(len(order) + 1):
        done = tuple(sorted(order[:steps]))
        if done not in states:
            states[done] = state_lines(model, plan, done)
        lines += states[done]
    return lines + ["finish"] + edit


def text_lines(model, plan, old):
    """The text edits, and what is made of them."""
    pieces = model.text_pieces(plan)
    lists = {"cut": pieces, "back": model.inverted(pieces, old), "trim": model._trimmed(pieces, old)}
    said = {word: ["%s %d %d %s" % (word, it.first, it.stop, quoted(model, it.text)) for it in listed] for word, listed in lists.items()}
    lines = said["cut"]
    for piece in pieces:
        places = [(*model.IsAt(old, place), model.IsWide(old, place)) for place in (piece.first, piece.stop)]
        lines.append("lines" + generate.spaced(places[0] + places[1]))
    lines += ["makes " + quoted(model, model.applied(old, pieces)), *said["back"], *said["trim"]]
    for annotation in sorted({annotation for annotation, _ in plan.registrations}):
        for path in model.found_for(plan, annotation):
            *place, found = model.element_cursor(plan, path)
            lines.append("cursor%s:%s" % (generate.spaced([annotation, *place]), generate.spaced(found) if found else " none"))
    return lines


def plan_lines(model, plan, of_script):
    """All that the model says of a plan."""
    numbers, edit = range(len(plan.changes)), edit_lines(model, plan)
    lines = ["fate " + line for line in model.plan_text(plan)]
    lines += ["shown %d %s" % (number, quoted(model, model.change_text(plan.changes[number]))) for number in numbers]
    places = [(number, model.ArePlaces(plan, number)) for number in numbers if model.has_stage(plan, number)]
    lines += ["place %d %s" % (number, "none" if path is None else model.path_text(path)) for number, path in places]
    lines += text_lines(model, plan, model.text(plan.root.tree))
    lines += [line for engine in ENGINES for line in ["engine " + engine] + edit]
    lines.append("built %d" % model.touched_by(plan))
    stands = [(path, model.stand_in_path(plan, path)) for path in model.node_paths(plan.root.tree)]
    lines += ["stand" + model.places_text(plan, pair) for pair in stands if pair[1] is not None]
    lines.append("default" + generate.spaced(model.IsDefaultOrder(plan)))
    tried, walked = orders(model, plan, of_script)
    for order in tried:
        refusal = model.OrderRefuses(plan, order)
        lines += ["try%s: %s" % (generate.spaced(order), refusal)] if refusal else ["try%s: allowed" % generate.spaced(order)] + edit
    states = {}
    return lines + [line for order in walked for line in walk_lines(model, plan, order, edit, states)]


def plan_in(model, outcome):
    """The plan of a script, if there is one and its text is not too long."""
    plan = outcome.plan
    return plan if plan and not model.BuildRefuses(plan) and not model.TextIsTooLong(plan) else None


def answer_lines(model, name, script):
    """All that the model says of a script."""
    status, answer = model.IsAnswerFor(model.SYNED, script)
    outcome = model.Means(script)
    plan = plan_in(model, outcome)
    printed = ["> " + line for line in answer.decode().split("\n")[:-1]]
    return ["script " + name, "status %d" % status] + printed + (plan_lines(model, plan, outcome.order) if plan else []) + ["end"]


def batch_lines(model, name, script):
    """A script with the orders to try, for `plan_answers`."""
    outcome = model.Means(script)
    plan = plan_in(model, outcome)
    tried, walked = orders(model, plan, outcome.order) if plan else ([], [])
    return (["script " + name] + ["> " + line.decode() for line in model.lines_in(script)]
            + ["try" + generate.spaced(order) for order in tried] + ["walk" + generate.spaced(order) for order in walked] + ["end"])


def scripts_in(name):
    """The scripts in a file, with their names."""
    read = known.read(name)
    if not read.startswith(b"script "):
        return [(name, read)]
    scripts = []
    for line in read.split(b"\n"):
        if line.startswith(b"script "):
            scripts.append([line[7:].decode(), b""])
        elif line.startswith(b"> "):
            scripts[-1][1] += line[2:] + b"\n"
    return scripts


def write(command, files):
    """Writes what the model says of the scripts in files, or the batch of them. What is no text is left out."""
    for file in files:
        for name, script in scripts_in(file):
            if not model.IsNoScript(script):
                lines = (answer_lines if command == "answer" else batch_lines)(model, name, script)
                sys.stdout.buffer.write(("\n".join(lines) + "\n").encode())
    return True


# The model against what is known.


def examples():
    """Scripts with lines that `answer` prints of them, in this order, among others; and with lines that it doesn't print."""
    for name, script, parts in known.rows(known.read(ROOT / "tests/scripts/model_examples.txt").decode()):
        yield name, script.encode(), parts["answer"].split("\n"), parts.get("not", "").split("\n")


def example_difference(wanted, unwanted, said):
    """How lines differ from an example: one is missing after those before it, or is there."""
    rest = iter(said)
    missing = next((line for line in wanted if line and line not in rest), None)
    if missing:
        return "the model lacks the line %s" % missing
    return next(("the model has the line %s" % line for line in unwanted if line and line in said), None)


def broken_law(model, plan):
    """A law of the definitions that a plan breaks, if it breaks one."""
    new, everything = model.new_tree(plan), model.undropped(plan)
    pieces, default = model.text_pieces(plan), model.IsDefaultOrder(plan)
    ends = [0] + [piece.stop for piece in pieces]
    if any(piece.first < end or piece.stop < piece.first for piece, end in zip(pieces, ends)):
        return "text edits are apart"
    if model.applied(model.text(plan.root.tree), pieces) != model.text(new):
        return "text edits make the new text"
    if model.applied(model.text(new), model.inverted(pieces, model.text(plan.root.tree))) != model.text(plan.root.tree):
        return "what takes text edits back gives the old text"
    if model.applied(model.text(plan.root.tree), model._trimmed(pieces, model.text(plan.root.tree))) != model.text(new):
        return "trimmed text edits make the same text"
    if model.plain(model.stage_tree(plan, [])) != plan.root.tree or model.stage_tree(plan, everything) != new:
        return "a run begins with the old tree and ends with the new one"
    if any([model.stage_payload(plan, number, everything)] != model.given(plan, number)
           for number in everything if model.has_stage(plan, number)):
        return "a payload ends with all that is carried out in it"
    if not all(model.IsAllowed(plan, order) for order in [default] + [generate.ready_order(model, plan, pick) for pick in (min, max)]):
        return "the default order is allowed, and so is one in which each change may be the next one"
    for number in everything:
        if model.has_stage(plan, number):
            paths = model.paths(model.subtree(plan.changes[number].payload[0]))
            if sum(model.IsPlaceIn(plan, number, path) for path in paths) > 1:
                return "a place is unique"
    return None


def compared(model):
    """For each known answer, each plan of such a script and each worked example: its name, and how the model differs, None if it doesn't."""
    for name, script, wanted, unwanted in examples():
        yield "worked examples", name, example_difference(wanted, unwanted, answer_lines(model, name, script))
    for case in known.known(*(part for part in known.PARTS if part not in ("wide_limits", "spaced"))):
        said = model.IsAnswerFor(*(case.words or [model.SYNED]), case.script)
        right = said == (case.status, case.answer)
        yield "known answers", case.name, None if right else "the model says %r; known is %r" % (said[1][:300], case.answer[:300])
        known_plan = not case.words and len(case.script) <= 20000 and not model.IsNoScript(case.script)
        plan = plan_in(model, model.Means(case.script)) if known_plan else None
        if plan:
            law = broken_law(model, plan)
            yield "plans by the laws of the definitions", case.name, law and "the law is broken that %s" % law


def nameless(model):
    """The functions and classes of the model that no row of docs/DEFINITIONS.md names."""
    names = set(re.findall(r"`(\w+)`", (ROOT / "docs/DEFINITIONS.md").read_text(encoding="utf-8")))
    own = [name for name, value in vars(model).items() if getattr(value, "__module__", None) == model.__name__]
    return [name for name in own if not name.startswith("_") and name not in names]


def is_right():
    """Whether the model says what is known, of scripts, laws and examples."""
    counts, wrong = {}, 0
    for name in nameless(model):
        wrong += 1
        print("differs: %s is no name of docs/DEFINITIONS.md" % name)
    for kind, name, difference in compared(model):
        counts[kind] = counts.get(kind, 0) + (difference is None)
        if difference is not None:
            wrong += 1
            print("differs: %s: %s" % (name, difference))
    said = ", ".join("%d %s" % (count, kind) for kind, count in counts.items())
    print("model: as expected are %s; %s" % (said, "wrong: %d" % wrong if wrong else "none is wrong"))
    return wrong == 0


# Models that are broken: each bug is a text of tests/model.py, which stands there once, and what stands in its place.

BUGS = [
    ("a token that is replaced alone has a region",
     'or (change.form != "ReplaceAll" and IsToken(change.first))', ""),
    ("a node replaced by many that are one node keeps what aims into it",
     'return change.form == "Replace" and IsNode', 'return change.form in ("Replace", "ReplaceWithMany") and IsNode'),
    ("an insert after a replaced node is outside",
     'return above(aim_path(an_aim)) if an_aim.form == "over"', 'return above(aim_path(an_aim)) if an_aim.form != "first"'),
    ("only the nearest region drops a change",
     "return any(not is_keeping(plan, outer) for outer in is_around(plan, number))",
     "return any(not is_keeping(plan, outer) for outer in is_around(plan, number)[-1:])"),
    ("the highest region owns a change",
     "for path in reversed(surroundings(plan, number)) if", "for path in surroundings(plan, number) if"),
    ("an element stands for itself although it has a copy",
     "([] if copy(mapping, child) else [child])", "[child]"),
    ("what is itself a copy stands for nothing",
     "mapping.originals.get(child, [])", "[first for first in mapping.originals.get(child, []) if first not in mapping.originals]"),
    ("a place is sought through one copy alone",
     "return any(StandsFor(mapping, stood, path[1:], target) for stood in", "return any((stood[0], stood[1] + path[1:]) == target for stood in"),
    ("there is a gap after the top of a payload",
     'and not (place == () and an_aim == Aim("after", (target,)))', ""),
    ("the last change without a place is named",
     "next((number for number in _numbers(plan) if IsUnplaced", "next((number for number in reversed(_numbers(plan)) if IsUnplaced"),
    ("the oldest pair of an address wins",
     "dict(reversed(self.pairs))", "dict(self.pairs)"),
    ("a gap is after its slot",
     "        made += gap(aims, path, index, given_by)\n        made += slot(aims, below, lambda: rewritten(child, aims, label_at, given_by, below),"
     " given_by)\n",
     "        made += slot(aims, below, lambda: rewritten(child, aims, label_at, given_by, below), given_by)\n"
     "        made += gap(aims, path, index, given_by)\n"),
    ("of two inserts into one gap the later one comes first",
     "return sorted(numbers)\n", "return sorted(numbers, reverse=True)\n"),
    ("a range takes only its first element away",
     "return [] if is_replaced(aims, path) else [kept_child()]", "return [kept_child()]"),
    ("the clash of the least first change is named",
     "clashing = {(second, first) for", "clashing = {(first, second) for"),
    ("a dropped replacement does not clash",
     'lambda plan, number: targets(_aim(plan, number))).values()',
     'lambda plan, number: () if is_dropped(plan, number) else targets(_aim(plan, number))).values()'),
    ("what owned changes own is lost",
     "lambda inner: given(plan, inner))", "lambda inner: payload_rewritten(plan, inner, _Aims([])))"),
    ("a moved path is not cut off at the owner's target",
     "return place + path[len(target):]", "return place + path"),
    ("a payload shows all that it will own",
     "only(dependents(plan, number), lambda inner: inner in done)", "dependents(plan, number)"),
    ("an element that is gone is found where it was",
     "_copies(plan).get(an_address, [])", "_copies(plan).get(an_address, [an_address[1]])"),
    ("an element is followed for one step",
     "return followed(mapping, further) if further else an_address", "return further or an_address"),
    ("the highest copy above an element is followed",
     "for upper in reversed(up_to(path)):", "for upper in up_to(path):"),
    ("the second place of an element is not found",
     "table.setdefault(part.label.address, []).append(path)",
     "table.setdefault(part.label.address, [path])"),
    ("all new elements are changed, and not the topmost alone",
     "if it_holds and not (path and holds[parent_path(path)])]", "if it_holds]"),
    ("a replacement takes a deletion back",
     "[new] if first is None or first.payload else []", "[new]"),
    ("a deletion does not update a replacement",
     'taken_up(editor, element, lambda _: _replacement("Replace", element, element, []))',
     'editor.changes.append(_replacement("Replace", element, element, []))'),
    ("a range of one element is a range",
     'or (call.form == "DeletingAll" and have_one_path(call.first, call.last))', ""),
    ("a removal leaves the space after the separator",
     "return (element, with_whitespace_after(following))", "return (element, following)"),
    ("a removal takes a separator behind two spaces",
     'return sibling(beside) if if_token_of(beside, b"WHITESPACE") else beside',
     'return past_whitespace(beside, sibling) if if_token_of(beside, b"WHITESPACE") else beside'),
    ("a copy needs the texts of its original",
     "return without_texts(first) == without_texts(second)", "return first == second"),
    ("a copy may be in the tree of its original",
     "if its_copy.number <= original.number:", "if its_copy.number < original.number:"),
    ("the root may be replaced by any list",
     "if is_root(call.first) and not is_one_node(call.elements) else None", "if is_root(call.first) and not call.elements else None"),
    ("the order is looked at before the plan",
     "return BuildRefuses(plan) or (OrderRefuses(plan, order) if order is not None else None) or",
     "return (OrderRefuses(plan, order) if order is not None else None) or BuildRefuses(plan) or"),
    ("a token that is replaced too early is named before a gap",
     '("GapOutOfOrder", gap_first), ("TokenTooEarly", token_first)', '("TokenTooEarly", token_first), ("GapOutOfOrder", gap_first)'),
    ("inserts into one gap may come in any order",
     "return same_gap(_aim(plan, first), _aim(plan, second)) and last_in_gap", "return False and last_in_gap"),
    ("in the default order a replacement is ahead of an insert",
     "fills_gap(plan.changes[first]) and not fills_gap(plan.changes[second])",
     "fills_gap(plan.changes[second]) and not fills_gap(plan.changes[first])"),
    ("a text edit of an insert is at the start of its anchor",
     'if an_aim.form == "after" else begin', "if False else begin"),
    ("a text edit that alters nothing is there",
     "for number in in_text_order(plan) if texts(given(plan, number)) != old_text(plan, number)]", "for number in in_text_order(plan)]"),
    ("a text edit is taken back where it stands in the old text",
     "return pieces[index].first + sum(len(piece.text) - (piece.stop - piece.first) for piece in pieces[:index])", "return pieces[index].first"),
    ("what two texts begin with stays in a text edit",
     "ahead = len(commonprefix([away, put]))", "ahead = 0"),
    ("a column is told in characters",
     'encode("utf-16-le")) // 2', 'encode("utf-32-le")) // 4'),
    ("a text edit has what begins in its text",
     "<= begin <= end <= new_start(pieces, index) + len(pieces[index].text)", "<= begin <= new_start(pieces, index) + len(pieces[index].text)"),
    ("the edit of a child goes on in its tree",
     "root = edited if is_root(edited) else state.with_root(rest[0], subtree(edited))", "root = edited"),
    ("notes are printed by their words",
     "for number, word in enumerate(words, 1)]", "for word, number in sorted((word, number) for number, word in enumerate(words, 1))]"),
    ("what comes after the finish is not read",
     "return Outcome(further) if further else", "return"),
]


def broken_model(old, new):
    """The model with one text in place of another."""
    source = (ROOT / "tests/model.py").read_text(encoding="utf-8")
    if source.count(old) != 1:
        raise SystemExit("models: %d times in tests/model.py: %s" % (source.count(old), old))
    broken = types.ModuleType("broken_model")
    exec(compile(source.replace(old, new), "broken_model.py", "exec"), broken.__dict__)
    return broken


def noticed(broken):
    """How a model differs first, None if it does not."""
    for kind, name, difference in compared(broken):
        if difference is not None:
            return "%s: %s: %s" % (kind, name, difference)
    return None


def reached(seed, count):
    """Says which bugs the random scripts of a seed reach."""
    scripts = [generate.text_of(generate.random_script(seed, number)) for number in range(count)]
    answers = [answer_lines(model, "", script) for script in scripts]
    missed = 0
    for name, old, new in BUGS:
        broken = broken_model(old, new)
        try:
            found = any(answer_lines(broken, "", script) != answer for script, answer in zip(scripts, answers))
        except Exception as failure:
            found, name = False, "%s: fails by %r" % (name, failure)
        missed += not found
        if not found:
            print("%s: not reached" % name)
    print("models: %d random scripts reach %d of %d bugs" % (count, len(BUGS) - missed, len(BUGS)))
    return missed == 0


def bugs_noticed(words):
    """Breaks the model by each bug, or by those whose names contain one of these words, and says what is not noticed, or by what it is."""
    if words[:1] == ["random"]:
        return reached(words[1], int(words[2]))
    bugs = [bug for bug in BUGS if not words or any(word in bug[0] for word in words)]
    count = 0
    for name, old, new in bugs:
        try:
            by = noticed(broken_model(old, new))
            count += by is not None
            if by is None or words:
                print("%s: %s" % (name, by or "not noticed"))
        except Exception as failure:
            print("%s: fails by %r" % (name, failure))
    print("models: %d of %d bugs noticed" % (count, len(bugs)))
    return count == len(bugs)


# The editor against the model.


def cases():
    """The scripts, by name."""
    for case in known.known("tables", "corpus", "examples"):
        yield case.name, case.script
    for number in range(RANDOM):
        yield "random %s %d" % (SEED, number), generate.text_of(generate.random_script(SEED, number))
    for name, lines in generate.pair_scripts():
        yield name, generate.text_of(lines)


def asked(case):
    """A script as the program reads it, and what it has to print of it."""
    batch, answer = batch_lines(model, *case), answer_lines(model, *case)
    return "\n".join(batch + [""]), "\n".join([line for line in answer if not line.startswith("place ")] + [""])


def runs(words=(), share=1):
    """One in so many of the scripts whose names contain one of the words, each asked, in groups for one run of the program."""
    group, size = [], 0
    chosen = (case for case in cases() if not words or any(word in case[0] for word in words))
    is_over = False
    with multiprocessing.get_context("fork").Pool() as pool:
        # Where no more are asked for, the workers end what they have: a pool that is ended at once may wait for ever for a worker's lock.
        try:
            for batch, wanted in pool.imap(asked, itertools.takewhile(lambda _: not is_over, itertools.islice(chosen, 0, None, share)), chunksize=16):
                if group and size + len(wanted.encode()) > MOST_PRINTED:
                    yield group
                    group, size = [], 0
                group.append((batch, wanted))
                size += len(wanted.encode())
        finally:
            is_over = True
            pool.close()
            pool.join()
    if group:
        yield group


def batch_of(group):
    return "".join(batch for batch, _ in group)


def counted(answer):
    """What an answer that is as it has to be compares."""
    found = re.findall(r"^(script|default|try|at|changed|found)\b(.*)", answer, re.M)
    counts = collections.Counter(word for word, _ in found)
    return collections.Counter({
        "scripts": counts["script"], "plans": counts["default"], "orders": counts["try"], "states of a run": counts["at"],
        "paths of changed elements": sum(rest.count(" ") for word, rest in found if word == "changed"),
        "paths of annotated elements": sum(rest.count(" ") - 1 for word, rest in found if word == "found")})


def difference(wanted, said):
    """The first line in which two answers differ, None if there is none."""
    lines = itertools.zip_longest(wanted.split("\n"), said.split("\n"))
    return next(("%s: the editor says %r, the model %r" % (wanted.split("\n")[0], got, want) for want, got in lines if want != got), None)


def compare(group, said, counts):
    """Adds to the counts what a run says as it has to, and gives what is wrong. What is said beyond that is wrong too."""
    answers = re.split(r"^(?=script )", said, flags=re.M)[1:] if said.startswith("script ") else [said]
    wrong = []
    for wanted, answer in itertools.zip_longest((wanted for _, wanted in group), answers, fillvalue=""):
        if wanted == answer:
            counts.update(counted(wanted))
        else:
            wrong.append("wrong: " + difference(wanted, answer))
    return wrong


def all_agree(answered):
    """Whether the editor says what the model says, for groups of scripts with what a run of the program printed of each."""
    counts, wrong, tried = collections.Counter(), [], 0
    for group, said in answered:
        wrong += compare(group, said, counts)
        tried += len(group)
        if len(wrong) >= MOST_WRONG:
            break
    print(*wrong[:MOST_WRONG], sep="\n", end="\n" if wrong else "")
    print("models: the model says the same: " + ", ".join("%d %s" % (count, what) for what, count in counts.items()))
    print("models: %d scripts were tried; wrong: %d" % (tried, len(wrong)))
    return not wrong and counts["scripts"] == tried and bool(counts) and all(counts.values())


def answer_of(program, batch):
    """What the program prints, and how it failed."""
    try:
        done = subprocess.run([program], input=batch.encode(), capture_output=True, timeout=60, check=False)
    except subprocess.TimeoutExpired:
        return "no end\n"
    return done.stdout.decode(errors="replace") + ("" if done.returncode == 0 else "status %d\n" % done.returncode)


def quick():
    """Compares a share of the scripts without proofs."""
    if programs.is_built("plan_answers"):
        return agree([])
    groups = list(runs(share=SHARE))
    said = programs.try_cases("plan_answers", {f"{number:04}": (batch_of(group), None) for number, group in enumerate(groups)})
    ended = dict(re.findall(r"^== (.*)\n((?s:.*?))^case=\1 run=ended status=0 ", said, re.M))
    if not ended:
        print(*said.splitlines()[-10:], sep="\n")
    return all_agree((group, ended.get(f"{number:04}", "")) for number, group in enumerate(groups))


def agree(words):
    program = programs.program("plan_answers")
    return all_agree((group, answer_of(program, batch_of(group))) for group in runs(words))


def main(words):
    command, rest = words[0] if words else "", words[1:]
    if command in ("answer", "batch") and rest:
        return not write(command, rest)
    if command == "named" and rest or not words:
        return not agree(rest)
    checks = {"quick": quick, "known": is_right}
    if command in checks and not rest:
        return not checks[command]()
    if command == "bugs":
        return not bugs_noticed(rest)
    print(__doc__)
    return 0 if words == ["--help"] else 2


if __name__ == "__main__":
    sys.exit(main(sys.argv[1:]))
