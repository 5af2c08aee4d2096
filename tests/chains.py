#!/usr/bin/env python3
"""Chains of random edits against the model: one list of text edits for all of them, its inverse, and where each element is afterwards.

    chains.py            600 chains of two to five edits, the same ones each time
    chains.py row N      the row of the chain N

A chain is a row that the program `test_rows` answers (docs/ROWS.md). The model (tests/model.py) makes the new tree of each edit, which the next
one edits, and says what is asked of the chain: what its text edits make of the first text, what their inverse makes of the last one, the changed
elements of the last edit, and where every element of the first tree is in the last one. What one edit does is compared by tests/models.py."""
import random
import subprocess
import sys
import tempfile
from pathlib import Path

import generate
import model
import programs

SEED, CHAINS, MOST_EDITS = "chains", 600, 5
# Changes of one edit, and how often other ones are tried where they clash or own others without a place.
MOST_CHANGES, TRIES = 4, 20
# A row has these between its steps, so no text may have them.
BETWEEN = (" ; ", "= ")


def reference(name, path):
    return "/".join([name, *map(str, path)])


def path_word(path):
    return "/".join(map(str, path)) or "."


def paths_answer(paths):
    return " ".join(map(path_word, paths)) or "none"


def quoted(text):
    return '"%s"' % model.escaped(text).decode()


class Edit:
    """Random changes of a tree by its name and its root: the steps that record them, and the plan that they make if they are one."""

    def __init__(self, rng, name, root, others):
        self.rng, self.name, self.root, self.others = rng, name, root, others
        self.steps, self.editor = [], model.Editor(root)
        for _ in range(rng.randint(1, MOST_CHANGES)):
            self.record(*self.change())
        self.plan = model.plan_of(self.editor)

    def some(self):
        """A random element of the tree, and how a row names it."""
        path = self.rng.choice(model.paths(self.root.tree))
        return model.element_at(self.root, path), reference(self.name, path)

    def payload(self, count):
        """Random elements of this tree and of the other ones, and how a row names them."""
        found = []
        for _ in range(count):
            name, root = self.rng.choice([(self.name, self.root), *self.others * 3])
            path = self.rng.choice(model.paths(root.tree))
            found.append((model.element_at(root, path), reference(name, path)))
        return tuple(it for it, _ in found), " ".join(word for _, word in found)

    def change(self):
        """A random call and its step; no call where there is none of this form."""
        form = self.rng.choice(["insert", "insert", "insert_all", "delete", "replace", "replace", "replace_with_many", "delete_all", "replace_all"])
        first, word = self.some()
        count = {"delete": 0, "delete_all": 0, "insert": 1, "replace": 1}.get(form, 2)
        new, words = self.payload(count)
        if form.startswith("insert"):
            side = self.rng.choice(["before", "after", "first", "last"])
            if (side in ("first", "last") and not model.IsNode(first)) or (side in ("before", "after") and model.is_root(first)):
                return None, ""
            place = {"before": model.before, "after": model.after, "first": model.FirstChild, "last": model.last_child_of}[side](first)
            kind = "Inserting" if form == "insert" else "InsertingAll"
            return model.RecordCall(kind, place, None, None, new), f"{form} {side} {word} {words}"
        last = model.next_sibling(first) or first if form.endswith("_all") and not model.is_root(first) else first
        ends = f"{word} {reference(self.name, last.path)}" if form.endswith("_all") else word
        kind = {"delete": "Deleting", "delete_all": "DeletingAll", "replace": "Replacing", "replace_with_many": "ReplacingWithMany"}
        return model.RecordCall(kind.get(form, "ReplacingAll"), None, first, last, new), f"{form} {ends} {words}".rstrip()

    def record(self, call, step):
        if call and not model.refusal(self.root, call):
            model.recorded(self.editor, call)
            self.steps.append(step)


def some_edit(rng, name, root, others):
    """An edit that is not refused."""
    for _ in range(TRIES):
        edit = Edit(rng, name, root, others)
        if edit.steps and not model.BuildRefuses(edit.plan):
            return edit
    return None


def chain(number):
    """The row of a chain, or none where a text has what stands between steps."""
    rng = random.Random(f"{SEED} {number}")
    trees = generate.Trees(rng)
    first, other = (model.IsLineTree(generate.written(trees.some(3)).encode()) for _ in range(2))
    steps = [f"tree {name} {model.tree_text(tree).decode()}" for name, tree in (("R", first), ("S", other))] + ["chain R"]
    name, root, others = "R", model.Element(1, first, ()), [("S", model.Element(2, other, ()))]
    found = {path: [path] for path in model.paths(first)}
    for step in range(rng.randint(2, MOST_EDITS)):
        edit = some_edit(rng, name, root, others)
        if not edit:
            return None
        steps += [f"new {name}", *edit.steps, "plan", f"step {'ABCDE'[step]}"]
        found = {path: [copy for it in paths for copy in model.copies_of(edit.plan, (root.number, it))] for path, paths in found.items()}
        name, root = "ABCDE"[step], model.Element(root.number + step + 2, model.plain(model.new_tree(edit.plan)), ())
    old, new = model.text(first), model.text(root.tree)
    asked = [("last_changed", paths_answer(model.changed(edit.plan)))]
    asked += [(f"find {reference('R', path)}", ("ok " if paths else "") + paths_answer(paths)) for path, paths in found.items()]
    asked += [("chain_edits", None), (f"apply {quoted(old)}", f"ok {quoted(new)}"), (f"inverse {quoted(old)}", None), (f"apply {quoted(new)}", f"ok {quoted(old)}")]
    steps += [f"? {step}" if answer else step for step, answer in asked]
    if any(word in text for word in BETWEEN for text in (quoted(old), quoted(new))):
        return None
    return f"chain {number}: {' ; '.join(steps)} = {' ; '.join(answer for _, answer in asked if answer)}"


def all_agree():
    """Whether the program answers as the model says."""
    rows = [row for row in map(chain, range(CHAINS)) if row]
    with tempfile.TemporaryDirectory() as room:
        Path(room, "random.rows").write_text("\n".join([*rows, "end", ""]))
        table = "growths are refused\ngroup random\nend\n"
        done = subprocess.run([programs.program("test_rows")], cwd=room, input=table, capture_output=True, text=True, timeout=300, check=False)
    is_right = (done.returncode, done.stdout) == (0, "random: as expected\n") and bool(rows)
    if not is_right:
        print(f"chains: wrong: status {done.returncode}", *done.stdout.split("\n")[:20], sep="\n")
    print(f"chains: {len(rows)} chains, {sum(row.count('; plan ;') for row in rows)} edits, {sum(row.count('? find ') for row in rows)} elements; "
          f"the model says {'the same' if is_right else 'otherwise'}")
    return is_right


def main(words):
    if words[:1] == ["row"] and len(words) == 2:
        print(chain(int(words[1])))
        return 0
    if words:
        print(__doc__)
        return 0 if words == ["--help"] else 2
    return not all_agree()


if __name__ == "__main__":
    sys.exit(main(sys.argv[1:]))
