#!/usr/bin/env python3
"""Renames a function and drops an argument of its calls, in every Python file of a folder, and prints a unified diff.

    codemod.py DIR OLD NEW [--drop NUMBER] [--write]    python3 examples/codemod.py tests known known_rows

OLD and NEW are names. Every use of the name OLD becomes NEW but one behind a dot, and a keyword of a call. NUMBER is that of
an argument, counted from 0 as the arguments are written; it goes with the comma after it and the whitespace after that, else
with the comma before it. Definitions keep their parameters. With --write the files are changed too.

It needs parso (`pip install parso`, or Debian's python3-parso) and bindings/out/libsyned.so (`bash bindings/build.sh`)."""
import argparse
import difflib
import sys
from pathlib import Path
from typing import Iterator, List, NamedTuple, Optional, Tuple

import parso
from parso.python.tree import Operator

sys.path.insert(0, str(Path(__file__).resolve().parents[1] / "bindings/python"))
from syned import Edit, Element, Kind, Node, Script, SynedError, Tree, node, token


class Change(NamedTuple):
    """What is done in every file."""

    old: str
    new: str
    drop: Optional[int]


def tree_of(source: str) -> Node:
    """The tree of a source, of parso's kinds. A comma has the kind COMMA, and so can be a separator."""
    starts = [0]
    for line in parso.split_lines(source, keepends=True):
        starts.append(starts[-1] + len(line))

    def place(found: parso.tree.NodeOrLeaf) -> Tuple[int, int]:
        (first, column), (last, end) = found.start_pos, found.end_pos
        return starts[first - 1] + column, starts[last - 1] + end

    return Tree.from_nodes(
        source,
        parso.parse(source),
        kind=lambda found: Kind.COMMA if isinstance(found, Operator) and found.value == "," else found.type,
        children=lambda found: getattr(found, "children", ()),
        range=place,
    )


def names(root: Element, name: str) -> Iterator[Element]:
    """The uses of a name below an element, but for those behind a dot and keywords of calls, in no order."""
    waiting = [root]
    while waiting:
        element = waiting.pop()
        children = element.children
        waiting += children
        for before, child, after in zip((None, *children), children, (*children[1:], None)):
            is_keyword = element.kind == "argument" and after is not None and after.text == "="
            is_behind_a_dot = element.kind in ("trailer", "dotted_name") and before is not None
            if child.kind == "name" and child.text == name and not is_keyword and not is_behind_a_dot:
                yield child


def arguments(name: Element) -> List[Element]:
    """The arguments of the call of a function by its name, if that is called."""
    above = name.parent
    if above is None or above.kind not in ("atom_expr", "power") or name.path[-1] != 0:
        return []
    trailer = next((child for child in above.children[1:] if child.kind == "trailer"), None)
    if trailer is None or trailer.children[0].text != "(":
        return []
    inside = trailer.children[1:-1]
    if len(inside) == 1 and inside[0].kind == "arglist":
        inside = inside[0].children
    return [it for it in inside if it.kind not in (Kind.COMMA, Kind.WHITESPACE, Kind.COMMENT)]


def changed(source: str, change: Change) -> Edit:
    """The edit of a source."""
    script = Script()
    root = script.edit(script.tree(tree_of(source)))
    new = script.tree(node("names", token("name", change.new)))[0]
    for name in names(root, change.old):
        script.replace(name, new)
        given = arguments(name)
        if change.drop is not None and change.drop < len(given):
            script.remove(given[change.drop], Kind.COMMA)
    return script.finish()


def diff(path: Path, old: str, new: str) -> str:
    lines = (text.splitlines(keepends=True) for text in (old, new))
    return "".join(difflib.unified_diff(*lines, f"a/{path}", f"b/{path}"))


def main() -> int:
    parser = argparse.ArgumentParser(description=__doc__, formatter_class=argparse.RawDescriptionHelpFormatter)
    parser.add_argument("folder", type=Path)
    parser.add_argument("old")
    parser.add_argument("new")
    parser.add_argument("--drop", type=int)
    parser.add_argument("--write", action="store_true")
    told = parser.parse_args()
    status = 0
    for path in sorted(told.folder.rglob("*.py")):
        try:
            # Newlines stay as they are.
            old = path.read_bytes().decode()
            edit = changed(old, Change(told.old, told.new, told.drop))
        except (OSError, ValueError, SynedError) as error:
            print(f"{path}: {error}", file=sys.stderr)
            status = 1
            continue
        if edit.edits:
            sys.stdout.write(diff(path, old, edit.text))
            if told.write:
                path.write_bytes(edit.text.encode())
    return status


if __name__ == "__main__":
    sys.exit(main())
