#!/usr/bin/env python3
"""Scripts for the model and the editor to be compared on. They are printed as `models.py answer` and `models.py batch` read them.

    generate.py random SEED COUNT     so many random scripts, the same ones for each seed: `SEED 0`, `SEED 1`, ..
    generate.py pairs                 every pair of 88 single changes of one small tree, and every pair of 75 of another one, as they are,
                                      around a change that owns others, and around two of which one owns the other
    generate.py counts SEED COUNT     how many of the random scripts are accepted, refused and bad, and what becomes of their changes

A random script has a small tree, most often with several nodes that are replaced by nodes with copies in them, and `map` lines that say so,
some of them left out or wrong. Its changes aim where others aim, or inside, so that they clash, are dropped, or move along. Half of the
orders are allowed ones. Texts are short, and some are empty or need escapes.
"""
import collections
import random
import sys

import model

NODES = "ARG_LIST LITERAL TUPLE_EXPR BLOCK_EXPR STMT_LIST NAME LET_STMT".split()
TOKENS = ['IDENT"a"', 'IDENT"b"', 'COMMA","', 'WHITESPACE" "', 'INT_NUMBER"1"', 'SEMICOLON";"', 'PLUS"+"', 'COMMA""', 'IDENT"é"',
          r'WHITESPACE"\n"', r'COMMENT"\"\\\t"']


SPACES = [[], ['WHITESPACE" "'], ['WHITESPACE" "', r'WHITESPACE"\n"']]


def spaced(numbers):
    return "".join(" %d" % number for number in numbers)


def ready_order(model, plan, pick):
    """An allowed order: of the changes that may be the next one, always the least, or always the greatest."""
    order = []
    while len(order) < len(model.undropped(plan)):
        order.append(pick(number for number in model.undropped(plan) if model.is_ready(plan, order, number)))
    return order


def bundle(name, lines):
    """A script without orders, as a batch has it."""
    return "".join(line + "\n" for line in ["script " + name] + ["> " + line for line in lines] + ["end"])


class Trees:
    """The trees of a script: a token is its expression, a node a list of its kind and its children. """

    def __init__(self, rng):
        self.rng, self.by_name, self.lines = rng, {}, []

    def some(self, depth):
        """A random node."""
        rng = self.rng
        found = [self.some(depth - 1) if depth > 1 and rng.random() < 0.45 else rng.choice(TOKENS)
                 for _ in range(rng.choice([0, 1, 2, 2, 3, 3, 4, 5]))]
        if rng.random() < 0.2:
            # A list: a comma between each two elements, with spaces on both sides of it, most often one after it.
            found = [part for element in found[:3]
                     for part in [element] + rng.choice(SPACES[:1] * 3 + SPACES) + ['COMMA","'] + rng.choice(SPACES[1:2] * 3 + SPACES)]
        return [rng.choice(NODES)] + found

    def add(self, name, tree):
        self.by_name[name] = tree
        self.lines.append("tree %s %s" % (name, written(tree)))
        return name

    def copy_of(self, tree):
        """A tree of the same shape, most often with the same texts."""
        if isinstance(tree, str):
            return tree if self.rng.random() < 0.8 else tree[:tree.index('"')] + '"%s"' % self.rng.choice("xyz")
        return [tree[0]] + [self.copy_of(child) for child in tree[1:]]

    def elements(self, name):
        """The references to all elements of a tree, with the trees there."""
        return list(references(name, self.by_name[name]))

    def nodes(self, name):
        return [(reference, tree) for reference, tree in self.elements(name) if isinstance(tree, list)]


def references(name, tree):
    yield name, tree
    for slot, child in enumerate(tree[1:] if isinstance(tree, list) else []):
        yield from references("%s/%d" % (name, slot), child)


def written(tree):
    return tree if isinstance(tree, str) else "(%s)" % " ".join([tree[0]] + [written(child) for child in tree[1:]])


class Script:
    """A random script as it is written."""

    def __init__(self, rng):
        self.rng, self.trees = rng, Trees(rng)
        top, wanted = [], rng.choice([2, 3, 4, 4, 5, 6])
        while len(top) < 3 or sum(isinstance(tree, list) for _, tree in references("A", top)) < wanted:
            top = self.trees.some(4)
        self.trees.add("A", top)
        self.lines = self.trees.lines
        edited, tree = rng.choice(self.trees.nodes("A")) if rng.random() < 0.15 else ("A", top)
        self.lines.append("edit R " + edited)
        self.trees.by_name["R"] = tree
        self.aims = []
        below = [slot for slot, child in enumerate(tree[1:]) if isinstance(child, list)]
        if edited != "A" and below and rng.random() < 0.6:
            # An element of the edited tree is a copy itself.
            slot = rng.choice(below)
            self.lines.append("map R %s/%d R/%d" % (edited, slot, slot))

    def new_name(self):
        return "T%d" % len(self.trees.by_name)

    def element(self, name="R"):
        """An element of a tree, often one that was aimed at before or one below it."""
        choices = [reference for reference, _ in self.trees.elements(name)]
        near = [other for other in choices if any(other.startswith(aim) for aim in self.aims)]
        chosen = self.rng.choice(near if near and self.rng.random() < 0.45 else choices[1:] or choices)
        self.aims.append(chosen)
        return chosen

    def node(self):
        nodes = [reference for reference, _ in self.trees.nodes("R")]
        chosen = self.rng.choice(nodes)
        self.aims.append(chosen)
        return chosen

    def new_elements(self, least, most):
        """References to elements of any tree, most often of new ones."""
        rng, found = self.rng, []
        for _ in range(rng.randint(least, most)):
            name = rng.choice(list(self.trees.by_name)) if rng.random() < 0.5 else self.trees.add(self.new_name(), self.trees.some(2))
            found.append(name if rng.random() < 0.5 else rng.choice(self.trees.elements(name))[0])
        return found

    def tree_at(self, reference):
        name = reference.split("/")[0]
        return dict(self.trees.elements(name))[reference]

    def wrap(self):
        """A node is replaced by one that has a copy of it somewhere, or a copy of what has a copy; the lines `map` may be missing."""
        rng = self.rng
        target = self.node()
        self.replace_by_copy(target, rng.choice([1, 1, 1, 2, 3]))
        # What is inside is aimed at soon.
        self.aims += [target] * 3

    def replace_by_copy(self, target, copies):
        rng, original = self.rng, target
        if rng.random() < 0.12:
            # The payload is of the same tree.
            self.lines.append("replace %s %s" % (target, rng.choice([target, "R", self.node()])))
            return
        for _ in range(copies):
            copy = self.trees.copy_of(self.tree_at(original))
            path, tree = [], copy
            for _ in range(rng.choice([1, 1, 1, 2])):
                before = [rng.choice(TOKENS) for _ in range(rng.choice([0, 0, 1, 2]))]
                tree, path = [rng.choice(NODES)] + before + [tree] + [rng.choice(TOKENS)] * rng.choice([0, 1]), [len(before)] + path
            name = self.trees.add(self.new_name(), tree)
            parent = "/".join([name] + [str(slot) for slot in path[:-1]])
            if rng.random() < 0.92:
                self.lines.append("map %s %s %s/%d" % (parent, original, parent, path[-1]))
            # The next copy is of a node round this one, in which the copies add up; or of this one, which then has no place.
            whole = "%s/%d" % (parent, path[-1])
            original = rng.choice([name, name, parent, whole])
        self.lines.append("replace %s %s" % (target, name))

    def insert(self):
        rng = self.rng
        where = rng.choice(["first", "last", "before", "after", "after"])
        place = self.node() if where in ("first", "last") else self.element()
        if place == "R" and where in ("before", "after"):
            where = "first"
        self.lines.append(" ".join(["insert", where, place] + self.new_elements(*rng.choice([(1, 1), (1, 1), (0, 3)]))))

    def again(self):
        """One more insert where there was one."""
        inserts = [line.split(" ")[1:3] for line in self.lines if line.startswith("insert ")]
        if inserts:
            self.lines.append(" ".join(["insert"] + self.rng.choice(inserts) + self.new_elements(0, 2)))

    def after_token(self):
        """An insert after a token that is replaced or deleted."""
        tokens = [reference for reference, tree in self.trees.elements("R") if isinstance(tree, str)]
        if tokens:
            token = self.rng.choice(tokens)
            lines = ["insert after %s %s" % (token, self.new_elements(1, 1)[0]),
                     self.rng.choice(["delete %s" % token, "replace %s A" % token, "replace %s" % token])]
            self.lines += lines if self.rng.random() < 0.5 else lines[::-1]

    def nested(self):
        """A node inside one that is replaced, or around it, is replaced too."""
        replaced = [line.split(" ")[1] for line in self.lines if line.startswith("replace R")]
        nodes = [reference for reference, _ in self.trees.nodes("R")
                 if any((reference + "/").startswith(other + "/") != (other + "/").startswith(reference + "/") for other in replaced)]
        if nodes:
            target = self.rng.choice(nodes)
            self.replace_by_copy(target, self.rng.choice([1, 1, 2]))
            self.aims += [target] * 6

    def drop(self):
        """A node is deleted or replaced by anything but a node, and so is what is inside; that is aimed at soon."""
        rng = self.rng
        target = self.node()
        if target != "R":
            self.lines.append(rng.choice(["delete %s", "replace %s", "replace %s A A", "range %s %s"]).replace("%s", target))
            self.aims += [target] * 4
        inside = [reference for reference, _ in self.trees.elements(target.split("/")[0]) if reference.startswith(target + "/")]
        if inside:
            self.lines.append(rng.choice(["delete %s", "replace %s A", "insert after %s A"]) % rng.choice(inside))

    def replace(self):
        target = self.element()
        self.lines.append(" ".join(["replace", target] + self.new_elements(*self.rng.choice([(1, 1), (1, 1), (1, 1), (0, 0), (2, 3)]))))

    def delete(self):
        self.lines.append("delete " + self.element())

    def remove(self):
        """An element is removed with its separator, most often one in a list."""
        listed = [reference for reference, _ in self.trees.elements("R")
                  if "/" in reference and 'COMMA","' in self.tree_at(reference.rpartition("/")[0])]
        element = self.rng.choice(listed) if listed and self.rng.random() < 0.8 else self.element()
        self.lines.append("remove %s %s" % (element, self.rng.choice(["COMMA", "COMMA", "COMMA", "SEMICOLON", "WHITESPACE"])))

    def span(self):
        """The siblings from one to another are replaced or deleted."""
        element = self.element()
        parent, slash, slot = element.rpartition("/")
        last = int(slot) + self.rng.choice([0, 0, 1, 1, 2]) if slash else None
        other = element if last is None else "%s/%d" % (parent, min(last, len(self.tree_at(parent)) - 2))
        self.lines.append(" ".join(["range", element, other] + self.new_elements(*self.rng.choice([(0, 0), (1, 2)]))))

    def note(self):
        """A note of an element, often of one that has copies or that is new."""
        name = self.rng.choice(list(self.trees.by_name)) if self.rng.random() < 0.5 else "R"
        self.lines.append("note %s %s" % (self.rng.choice("wvu"), self.rng.choice(self.trees.elements(name))[0]))

    def pair(self):
        """Two elements of any trees are said to be an original and a copy; most often they are not."""
        rng = self.rng
        parent, tree = rng.choice(self.trees.nodes(rng.choice(list(self.trees.by_name))))
        below = ["%s/%d" % (parent, slot) for slot, child in enumerate(tree[1:]) if isinstance(child, list)] or [parent]
        original = rng.choice(self.trees.nodes(rng.choice(list(self.trees.by_name))))[0]
        self.lines.append("map %s %s %s" % (parent, original, rng.choice(below)))

    def wrong(self):
        """A line that is refused or bad."""
        rng = self.rng
        foreign = self.new_elements(1, 1)[0]
        line = rng.choice(["delete R", "replace R", "delete " + foreign, "range R/1 R/0", "insert first %s A" % foreign.split("/")[0],
                           "remove R COMMA", "range R R", "replace R/0 Z", "insert before R A", "delete R/0/0/0/0", "order x", "frob"])
        self.lines.append(line)


# How often each line is written, by what a script is about: anything, changes inside what is replaced, inserts in few gaps.
WEIGHTS = [
    (3, {"wrap": 5, "insert": 7, "replace": 3, "delete": 2, "span": 2, "remove": 2, "note": 3, "drop": 1, "pair": 0.1, "wrong": 0.12}),
    (2, {"wrap": 6, "nested": 8, "insert": 5, "delete": 1, "drop": 0.5, "note": 2}),
    (1, {"insert": 4, "again": 8, "after_token": 4, "delete": 1, "wrap": 2, "note": 1}),
    (1, {"drop": 5, "delete": 1, "span": 2, "replace": 2, "insert": 4, "nested": 1, "note": 2}),
]


def change_lines(script):
    rng = script.rng
    weights = rng.choices([weights for _, weights in WEIGHTS], [often for often, _ in WEIGHTS])[0]
    for _ in range(rng.choice([1, 2, 3, 4, 5, 6, 8, 10])):
        getattr(script, rng.choices(list(weights), list(weights.values()))[0])()


def text_of(lines):
    return "".join(line + "\n" for line in lines).encode()


def order_line(rng, lines):
    """An order for a script that has none: one that is allowed, one that may not be, or a list that is none."""
    plan = model.Means(text_of(lines)).plan
    if plan is None or model.BuildRefuses(plan):
        return "order" + spaced(rng.sample(range(4), rng.randint(0, 3)))
    order = ready_order(model, plan, lambda ready: rng.choice(list(ready)))
    kind = rng.random()
    if kind < 0.3:
        rng.shuffle(order)
    elif kind < 0.4:
        order = order + [rng.randint(0, len(plan.changes))] if rng.random() < 0.5 else order[1:]
    return "order" + spaced(order)


def random_script(seed, number):
    rng = random.Random("%s %d" % (seed, number))
    script = Script(rng)
    change_lines(script)
    lines = script.lines + ["finish"] * (rng.random() < 0.98)
    if rng.random() < 0.03:
        lines.append(rng.choice(["# end", "finish", "delete R/0", ""]))
    if rng.random() < 0.35:
        # Somewhere after the two lines that make the tree and start the edit.
        lines.insert(rng.randint(2, max(2, len(lines) - 1)), order_line(rng, lines))
    return lines


SMALL = '(BLOCK_EXPR L_CURLY"{" (LITERAL INT_NUMBER"1") COMMA"," (TUPLE_EXPR (NAME)) R_CURLY"}")'
# What replaces a node by one with a copy of it, and the lines for that.
WRAPPERS = {
    "replace R WR": ['tree WR (STMT_LIST %s SEMICOLON";")' % SMALL, "map WR R WR/0"],
    "replace R/1 W1": ['tree W1 (TUPLE_EXPR (LITERAL INT_NUMBER"1"))', "map W1 R/1 W1/0"],
    "replace R/3 W3": ["tree W3 (NAME (TUPLE_EXPR (NAME)))", "map W3 R/3 W3/0"],
    "replace R/3/0 W30": ['tree W30 (TUPLE_EXPR COMMA"," (NAME))', "map W30 R/3/0 W30/1"],
}


def single_changes():
    """Single changes of the small tree."""
    gaps = ["first R", "after R/0", "after R/1", "after R/2", "after R/3", "last R", "first R/1", "last R/1", "first R/3", "last R/3", "first R/3/0"]
    changes = ["insert %s %s" % (gap, new) for gap in gaps for new in ("X/0", "X/0 N")]
    for element in ("R/0", "R/1", "R/1/0", "R/2", "R/3", "R/3/0", "R/4"):
        changes += ["delete " + element] + ["replace %s%s" % (element, new) for new in ("", " X/0", " N", " X/0 N")]
    changes += list(WRAPPERS)
    changes += ["replace R N", "replace R R", "replace R/1 R/1", "replace R/3 R", "range R/3/0 R/3/0 N", "remove R/1 COMMA", "remove R/3 COMMA"]
    return changes + ["range R/%d R/%d%s" % (first, last, new) for first in range(5) for last in range(first + 1, 5) for new in ("", " X/0")]


def pair_scripts():
    """Every pair of single changes, each after the other, and each with itself. A copy is mapped where a change has it."""
    opening = ["tree A " + SMALL, "edit R A", 'tree X (SOURCE_FILE IDENT"x")', 'tree N (LITERAL INT_NUMBER"7" (NAME))']
    notes = ["note w R/1", "note w R/3/0", "note v R/1/0", "note x X/0"]
    changes = single_changes()
    for first in changes:
        for second in changes:
            mapped = [line for change, lines in WRAPPERS.items() if change in (first, second) for line in lines]
            yield "pair %s, %s" % (first, second), opening + mapped + [first, second] + notes + ["finish"]
    yield from list_pair_scripts()


LIST = '(ARG_LIST L_PAREN"(" (LITERAL INT_NUMBER"1") COMMA"," WHITESPACE" " (LITERAL INT_NUMBER"2") R_PAREN")")'
# What is recorded between the two changes of a pair: nothing, or nodes are replaced by nodes with copies of them.
BETWEEN = {"pair": [], "pair around an owner": ["replace R/1 V"], "pair around nested owners": ["replace R/1 V", "replace R W"]}


def list_changes(new):
    """Single changes of the list: in each node, of each element, and of each two neighbours. What they bring is a token and a node of a tree."""
    token, node = new + "/0", new + "/1"
    both = token + " " + node
    changes = ["insert first %s %s" % (element, token) for element in ("R", "R/1", "R/4")]
    changes += ["insert last %s %s" % (element, both) for element in ("R", "R/1", "R/4")]
    changes += ["replace R " + node, "replace R R", "range R R " + node]
    for element in ["R/%d" % slot for slot in range(6)] + ["R/1/0", "R/4/0"]:
        changes += ["insert before %s %s" % (element, token), "insert after %s %s" % (element, token), "delete " + element]
        changes += ["replace %s %s" % (element, brought) for brought in (token, node, element, both)]
    return changes + ["range R/%d R/%d%s" % (slot, slot + 1, brought) for slot in range(5) for brought in ("", " " + both)]


def list_pair_scripts():
    """Every pair of single changes of the list, each after the other, and each with one like itself."""
    opening = ["tree A " + LIST, "edit R A", 'tree V (TUPLE_EXPR L_PAREN"(" (LITERAL INT_NUMBER"7") R_PAREN")")',
               'tree W (BLOCK_EXPR L_CURLY"{" %s R_CURLY"}")' % LIST, 'tree X (SOURCE_FILE IDENT"x" (LITERAL INT_NUMBER"3"))',
               'tree Y (SOURCE_FILE IDENT"y" (TUPLE_EXPR L_PAREN"("))', "map V R/1 V/1", "map W R W/1"]
    notes = ["note w R/1", "note v R/1/0", "note v R/4", "note x X/0"]
    for name, between in BETWEEN.items():
        for first in list_changes("X"):
            for second in list_changes("Y"):
                yield "%s %s, %s" % (name, first, second), opening + [first] + between + [second] + notes + ["finish"]


def counts(scripts):
    """How often scripts end so, and changes have these fates."""
    found = collections.Counter()
    for _, lines in scripts:
        status, answer = model.IsAnswerFor(model.SYNED, text_of(lines))
        found[answer.split(b"\n")[0].split(b" ")[1].decode() if status == 1 else ("accepted", "", "bad")[status]] += 1
        outcome = model.Means(text_of(lines))
        plan = outcome.plan
        if status == 0:
            fates = {"dropped" if model.is_dropped(plan, number) else "on the tree" if model.owner(plan, number) is None else "along"
                     for number in range(len(plan.changes))}
            depth = max([0] + [len(nest(plan, number)) for number in range(len(plan.changes))])
            found.update("accepted with a change " + fate for fate in fates)
            found["accepted with owners that are owned"] += depth > 1
            found["accepted in an order"] += outcome.order is not None
            found["accepted with annotated elements"] += any(paths for _, paths in model.annotated(plan))
            found["accepted with mapped pairs"] += bool(plan.mapping.pairs)
    return found


def nest(plan, number):
    """The owners of a change, and theirs."""
    owner = model.owner(plan, number)
    return [] if owner is None else [owner] + nest(plan, owner)


def main(arguments):
    if arguments == ["pairs"]:
        scripts = pair_scripts()
    elif len(arguments) == 3 and arguments[0] in ("random", "counts"):
        seed, count = arguments[1], int(arguments[2])
        scripts = (("%s %d" % (seed, number), random_script(seed, number)) for number in range(count))
    else:
        print(__doc__)
        return 0 if arguments == ["--help"] else 2
    if arguments[0] == "counts":
        for what, count in sorted(counts(scripts).items(), key=lambda item: -item[1]):
            print("%6d  %s" % (count, what))
        return 0
    for name, lines in scripts:
        sys.stdout.buffer.write(bundle(name, lines).encode())
    return 0


if __name__ == "__main__":
    sys.exit(main(sys.argv[1:]))
