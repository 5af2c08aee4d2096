"""Files of Python's standard library as trees of several parsers: their texts come back, and edits are those of plain text.

SYNED_FILES says how many files are read, 40 if it is not there. Those that are no UTF-8 or no Python are left out."""
import ast
import importlib.util
import os
import re
import sys
import sysconfig
import unittest
from pathlib import Path

from syned import Kind, Script, Tree, apply_edits, node, pieces, token

sys.path.insert(0, str(Path(__file__).resolve().parents[3] / "examples"))
COUNT = int(os.environ.get("SYNED_FILES", "40"))


def needs(*modules):
    """Leaves a class of tests out if a module is not there."""
    missing = [module for module in modules if not importlib.util.find_spec(module)]
    return unittest.skipIf(missing, f"not installed: {', '.join(missing)}")


def sources():
    """Files of the standard library, from all of it: their paths and bytes."""
    files = sorted(Path(sysconfig.get_paths()["stdlib"]).rglob("*.py"))
    files = [path for path in files if "site-packages" not in path.parts]
    read = 0
    for path in (path for start in range(17) for path in files[start::17]):
        source = path.read_bytes()
        try:
            source.decode()
            ast.parse(source)
        except (ValueError, SyntaxError):
            continue
        yield path, source
        read += 1
        if read == COUNT:
            return


def place_of(starts):
    """Where a node of `ast` is in a source whose lines start at these bytes. Some have no place; of what is in an f-string
    none is told rightly."""

    def place(found):
        if getattr(found, "lineno", None) is None:
            return None
        # A definition begins behind its decorators there, which are in it all the same.
        first = min([found, *getattr(found, "decorator_list", ())], key=lambda it: it.lineno)
        return starts[first.lineno - 1] + first.col_offset, starts[found.end_lineno - 1] + found.end_col_offset

    return place


def children_of(found):
    return () if isinstance(found, ast.JoinedStr) else ast.iter_child_nodes(found)


def of_ast(source):
    lines = re.split(rb"(?<=\n)|(?<=\r)(?!\n)", source)
    starts = [0]
    for line in lines:
        starts.append(starts[-1] + len(line))
    return Tree.from_nodes(
        source, ast.parse(source), kind=lambda found: type(found).__name__, children=children_of, range=place_of(starts)
    )


def of_parso(source):
    import codemod

    return codemod.tree_of(source.decode())


def of_tree_sitter(source):
    import tree_sitter
    import tree_sitter_python

    parser = tree_sitter.Parser(tree_sitter.Language(tree_sitter_python.language()))
    return Tree.from_nodes(
        source, parser.parse(source).root_node, kind=lambda found: found.type, children=lambda found: found.children,
        range=lambda found: (found.start_byte, found.end_byte),
    )


class Adapter:
    """What holds of the trees that are made of any parser's: `tree` makes one, and `name` is the kind of a name there."""

    def test_texts_come_back(self):
        for path, source in sources():
            with self.subTest(path):
                tree = self.tree(source)
                self.assertEqual(tree.text.encode(), source)
                self.assertEqual(tree.length, len(source))

    def test_names_are_renamed_as_in_plain_text(self):
        for path, source in sources():
            with self.subTest(path):
                script = Script()
                root = script.edit(script.tree(self.tree(source)))
                new = script.tree(node("names", token("name", "n")))
                found = [it for it in below(root) if it.kind == self.name][::7]
                for name in found:
                    script.replace(name, new[0])
                wanted = source
                places = sorted(name.range for name in found)
                for start, end in reversed(places):
                    wanted = wanted[:start] + b"n" + wanted[end:]
                edit = script.finish()
                self.assertEqual(edit.text.encode(), wanted)
                # A name that is the new one already is no edit of the text.
                altered = [(start, end) for start, end in places if source[start:end] != b"n"]
                self.assertEqual([it[:2] for it in edit.edits], altered)
                self.assertEqual(apply_edits(edit.edits, source), wanted)
                self.assertEqual({wanted[start:end] for start, end in edit.ranges.values()}, {b"n"} if found else set())


class OfAst(Adapter, unittest.TestCase):
    tree, name = staticmethod(of_ast), "Name"


@needs("parso")
class OfParso(Adapter, unittest.TestCase):
    tree, name = staticmethod(of_parso), "name"


@needs("tree_sitter", "tree_sitter_python")
class OfTreeSitter(Adapter, unittest.TestCase):
    tree, name = staticmethod(of_tree_sitter), "identifier"


class Adapters(unittest.TestCase):
    def test_what_is_refused(self):
        def tree(*places):
            nodes = {"at": (0, 9), "in": [{"at": at} for at in places]}
            return Tree.from_nodes(
                "abcdefghi", nodes, kind=lambda it: "k", children=lambda it: it.get("in", ()), range=lambda it: it["at"]
            )

        self.assertEqual([child.text for child in tree((4, 6), (0, 2)).children], ["ab", "cd", "ef", "ghi"])
        for places in ([(0, 3), (2, 4)], [(8, 10)], [(3, 2)]):
            with self.assertRaises(ValueError):
                tree(*places)

    def test_nodes_without_a_place_are_left_out(self):
        nodes = {"at": (0, 3), "in": [{"in": [{"at": (1, 2)}, {"at": (2, 3)}], "at": None}, {"at": (0, 1)}]}
        tree = Tree.from_nodes(b"abc", nodes, kind=lambda it: "k", children=lambda it: it.get("in", ()), range=lambda it: it["at"])
        self.assertEqual([child.text for child in tree.children], ["a", "b", "c"])

    def test_deep_nodes(self):
        deep = (0, 1)
        for _ in range(50000):
            deep = [deep]
        tree = Tree.from_nodes("x", deep, kind=lambda _: "k", children=lambda it: it if isinstance(it, list) else (), range=lambda _: (0, 1))
        self.assertEqual(tree.text, "x")

    def test_pieces(self):
        for gap in ("", " ", ", ", "\n# a\n\t(", "é += 1 // b", "\r\n\\\n"):
            self.assertEqual("".join(text for _, text in pieces(gap)), gap)
        self.assertEqual([kind for kind, _ in pieces("a, (")], ["WORD", Kind.COMMA, Kind.WHITESPACE, Kind.L_PAREN])


@needs("parso")
class Codemods(unittest.TestCase):
    """The example `codemod.py`, beside plain text edits at the places of the same elements."""

    def test_renames_and_dropped_arguments(self):
        import codemod

        done = 0
        for path, source in sources():
            with self.subTest(path):
                text = source.decode()
                name = self.called(text)
                script = Script()
                root = script.tree(codemod.tree_of(text))
                self.assertEqual(root.text, text)
                wanted = self.plain(text, root, name)
                edit = codemod.changed(text, codemod.Change(name, "renamed", 0))
                self.assertEqual(edit.text, wanted)
                self.assertEqual(apply_edits(edit.edits, text), wanted)
                done += 1
        self.assertEqual(done, COUNT)

    def called(self, text):
        """The name that is called most often in a file."""
        names = re.findall(r"(?<![.\w])([a-z_]\w+)\(", text)
        return max(names, key=names.count, default="print")

    def plain(self, text, root, name):
        """The text with these edits made by hand: spans of bytes and what stands in their place."""
        import codemod

        spans = []
        for found in codemod.names(root, name):
            spans.append((*found.range, b"renamed"))
            given = codemod.arguments(found)
            if given:
                spans.append((*self.with_separator(given[0]), b""))
        new = text.encode()
        # What lies in a dropped argument goes with it.
        outer = [it for it in spans if not any(o[0] <= it[0] and it[1] <= o[1] and o != it and not o[2] for o in spans)]
        for start, end, put in sorted(outer, reverse=True):
            new = new[:start] + put + new[end:]
        return new.decode()

    def with_separator(self, argument):
        start, end = argument.range
        after = argument.parent.children[argument.path[-1] + 1 :]
        rest = [it for it in after if it.kind not in (Kind.WHITESPACE, Kind.COMMENT)]
        if rest and rest[0].kind == Kind.COMMA:
            end = rest[0].range[1]
            behind = argument.parent.children[rest[0].path[-1] + 1 :]
            if behind and behind[0].kind == Kind.WHITESPACE:
                end = behind[0].range[1]
        return start, end


def below(root):
    waiting = [root]
    while waiting:
        element = waiting.pop()
        yield element
        waiting += element.children


if __name__ == "__main__":
    unittest.main()
