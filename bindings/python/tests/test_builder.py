"""What the builder writes and gets back: each line word, and each refusal. The answers are worked by hand."""
import random
import re
import tempfile
import unittest
from pathlib import Path
from unittest import mock

from syned import (
    BadScript,
    Dialect,
    Edit,
    Failed,
    Kind,
    NoLibrary,
    Node,
    Position,
    Refusal,
    Refused,
    Script,
    Status,
    SynedError,
    TextEdit,
    _edit,
    _library,
    apply_edits,
    carry_out,
    explain,
    in_characters,
    node,
    run,
    token,
)
from syned._tree import expression

ROOT = Path(__file__).resolve().parents[3]


def literal(digits):
    return node(Kind.LITERAL, token(Kind.INT_NUMBER, digits))


# `(1, 2)`. Its children are `(`, `1`, `,`, ` `, `2` and `)`.
ARGUMENTS = node(
    Kind.ARG_LIST,
    token(Kind.L_PAREN, "("),
    literal("1"),
    token(Kind.COMMA, ","),
    token(Kind.WHITESPACE, " "),
    literal("2"),
    token(Kind.R_PAREN, ")"),
)
# `{1}`, with a copy of the literal `1`.
BLOCK = node(Kind.BLOCK_EXPR, token(Kind.L_CURLY, "{"), literal("1"), token(Kind.R_CURLY, "}"))


def begun(tree=ARGUMENTS):
    """A script that edits this tree, and the root that its changes refer to."""
    script = Script()
    return script, script.edit(script.tree(tree))


def below(root):
    """An element and all below it."""
    found = [root]
    for element in found:
        found += element.children
    return found


def words(script, *texts):
    """New tokens with these texts."""
    return list(script.tree(node(Kind.SOURCE_FILE, *(token(Kind.IDENT, text) for text in texts))))


class LineWords(unittest.TestCase):
    def test_tree(self):
        script = Script()
        script.tree(node(Kind.ATTR))
        script.tree(node(Kind.NAME, token(Kind.IDENT, ""), node(Kind.USE, literal("1"), node(Kind.USE))))
        self.assertEqual(
            str(script), '\ntree T0 (ATTR)\ntree T1 (NAME IDENT"" (USE (LITERAL INT_NUMBER"1") (USE)))\n'
        )

    def test_edit(self):
        script, root = begun()
        self.assertEqual(str(script).split("\n")[2], "edit R T0")
        self.assertEqual(script.finish(), Edit("(1, 2)", (), {}))
        self.assertEqual(root.text, "(1, 2)")

    def test_edit_of_an_inner_node_is_of_a_copy(self):
        script = Script()
        root = script.edit(script.tree(ARGUMENTS)[4])
        script.replace(root[0], *words(script, "x"))
        self.assertEqual(script.finish(), Edit("x", ((0,),), {}))

    def test_map(self):
        script, root = begun()
        block = script.tree(BLOCK)
        script.map(block, root[1], block[1])
        script.replace(root[1][0], *words(script, "x"))
        script.replace(root[1], block)
        self.assertEqual(str(script).split("\n")[4], "map T1 R/1 T1/1")
        self.assertEqual(script.finish(), Edit("({x}, 2)", ((1,),), {}))

    def test_insert(self):
        script, root = begun()
        a, b, c, d, e = words(script, "a", "b", "c", "d", "e")
        script.insert(Position.first(root), a)
        script.insert(Position.last(root), b)
        script.insert(Position.before(root[2]), c)
        script.insert(Position.after(root[4]), d, e)
        self.assertEqual(
            str(script).split("\n")[4:8],
            ["insert first R T1/0", "insert last R T1/1", "insert before R/2 T1/2", "insert after R/4 T1/3 T1/4"],
        )
        # a ( 1 c , ' ' 2 d e ) b
        self.assertEqual(script.finish(), Edit("a(1c, 2de)b", ((0,), (3,), (7,), (8,), (10,)), {}))

    def test_insert_with_whitespace(self):
        script, root = begun()
        (a,) = words(script, "a")
        script.insert_with_whitespace(Position.after(root[2]), a)
        script.insert_with_whitespace(Position.first(root[4]), a, root[1])
        self.assertEqual(str(script).split("\n")[4:6], ["spaced after R/2 T1/0", "spaced first R/4 T1/0 R/1"])
        # ( 1 , ' ' a ' ' [a 1 ' ' 2] ): after the first `a` stands whitespace already.
        changed = ((3,), (4,), (6, 0), (6, 1), (6, 2))
        self.assertEqual(script.finish(), Edit("(1, a a1 2)", changed, {}))

    def test_indent_and_dedent(self):
        script = Script()
        lines = token(Kind.WHITESPACE, "\n  \n    ")
        inner = node(Kind.STMT_LIST, lines, token(Kind.COMMENT, "/*\n    */"), token(Kind.WHITESPACE, " "))
        block = script.tree(node(Kind.BLOCK_EXPR, inner, node(Kind.LITERAL), lines))
        further = script.indent(block[0])
        back = script.dedent(further)
        out = script.dedent(block)
        self.assertEqual(str(script).split("\n")[2:5], ["indent T1 T0/0", "dedent T2 T1", "dedent T3 T0"])
        self.assertEqual(further.text, "\n  \n        /*\n    */ ")
        self.assertEqual((back.text, back.tree), (block[0].text, block[0].tree))
        self.assertEqual(out.text, "\n  \n/*\n    */ \n  \n")
        # What has no line is shared.
        self.assertIs(out[1].tree, block[1].tree)
        root = script.edit(further)
        script.replace(root[0], out, back)
        self.assertEqual(script.finish().text, out.text + back.text + further.text[len("\n  \n        ") :])

    def test_delete(self):
        script, root = begun()
        script.delete(root[1])
        self.assertEqual(script.finish(), Edit("(, 2)", (), {}))

    def test_replace(self):
        script, root = begun()
        a, b, c = words(script, "a", "b", "c")
        script.replace(root[1], a)
        script.replace(root[3])
        script.replace(root[4], b, c)
        self.assertEqual(str(script).split("\n")[4:7], ["replace R/1 T1/0", "replace R/3", "replace R/4 T1/1 T1/2"])
        self.assertEqual(script.finish(), Edit("(a,bc)", ((1,), (3,), (4,)), {}))

    def test_range(self):
        script, root = begun()
        a, b = words(script, "a", "b")
        script.range(root[0], root[1], a, b)
        script.range(root[3], root[4])
        self.assertEqual(str(script).split("\n")[4:6], ["range R/0 R/1 T1/0 T1/1", "range R/3 R/4"])
        self.assertEqual(script.finish(), Edit("ab,)", ((0,), (1,)), {}))

    def test_note(self):
        script, root = begun()
        (new,) = words(script, "x")
        script.note("number", root[4][0])
        script.note("gone", root[1])
        script.note("root", root)
        script.note("number", new)
        script.delete(root[1])
        script.insert(Position.first(root), new)
        notes = {"number": ((4, 0), (0,)), "gone": (), "root": ((),)}
        self.assertEqual(script.finish(), Edit("x(, 2)", ((0,),), notes))

    def test_remove(self):
        script, root = begun()
        script.remove(root[1], Kind.COMMA)
        self.assertEqual(str(script).split("\n")[3], "remove R/1 COMMA")
        self.assertEqual(script.finish(), Edit("(2)", (), {}))

    def test_order(self):
        script, root = begun()
        a, b = words(script, "a", "b")
        script.insert(Position.first(root), a)
        script.insert(Position.first(root), b)
        script.order(1, 0)
        self.assertEqual(str(script).split("\n")[6], "order 1 0")
        self.assertEqual(script.finish(), Edit("ab(1, 2)", ((0,), (1,)), {}))

    def test_finish(self):
        script, _ = begun()
        script.finish()
        self.assertEqual(bytes(script), b"%sshow edits\nshow ranges\nfinish\n" % str(script).encode())
        self.assertEqual(carry_out(bytes(script), Dialect.WIDE), script.finish())


class Refusals(unittest.TestCase):
    def assert_refused(self, script, refusal, changes=(), where=None):
        with self.assertRaises(Refused) as caught:
            script.finish()
        error = caught.exception
        self.assertEqual((error.refusal, error.changes), (refusal, changes))
        # The sentence begins with what is printed of the refusal, and ends with the line, which is the last one unless another is named.
        printed = " ".join(["refused", refusal.value, *map(str, changes)])
        self.assertTrue(str(error).startswith(f"{printed}: "), str(error))
        where = where or "line %d" % bytes(script).count(b"\n")
        self.assertTrue(str(error).endswith(f": {where}"), str(error))
        self.assertEqual(error.lines, tuple(map(int, re.findall("line ([0-9]+)", where))))
        self.assertEqual(str(error), error.sentence)

    def test_foreign(self):
        script, _ = begun()
        other = script.tree(ARGUMENTS)
        script.delete(other[0])
        self.assert_refused(script, Refusal.FOREIGN, where="line 5")

    def test_bad_range(self):
        script, root = begun()
        script.range(root[1], root[0])
        self.assert_refused(script, Refusal.BAD_RANGE, where="line 4")

    def test_deletes_root(self):
        script, root = begun()
        script.delete(root)
        self.assert_refused(script, Refusal.DELETES_ROOT, where="line 4")

    def test_root_replacement(self):
        script, root = begun()
        script.replace(root, *words(script, "x"))
        self.assert_refused(script, Refusal.ROOT_REPLACEMENT, where="line 5")

    def test_not_a_child(self):
        script, root = begun()
        block = script.tree(node(Kind.STMT_LIST, BLOCK))
        script.map(block, root[1], block[0][1])
        self.assert_refused(script, Refusal.NOT_A_CHILD, where="line 5")

    def test_not_younger(self):
        script, root = begun()
        block = script.tree(BLOCK)
        script.map(root, block[1], root[1])
        self.assert_refused(script, Refusal.NOT_YOUNGER, where="line 5")

    def test_other_shape(self):
        script, root = begun()
        block = script.tree(BLOCK)
        script.map(block, root, block[1])
        self.assert_refused(script, Refusal.OTHER_SHAPE, where="line 5")

    def test_intersecting(self):
        script, root = begun()
        script.delete(root[3])
        script.replace(root[1], *words(script, "x"))
        script.range(root[1], root[2])
        self.assert_refused(script, Refusal.INTERSECTING, (1, 2), "changes 1 (line 6) and 2 (line 7)")

    def test_missing_mapping(self):
        script, root = begun()
        script.replace(root[1], script.tree(BLOCK))
        script.replace(root[1][0], *words(script, "x"))
        self.assert_refused(script, Refusal.MISSING_MAPPING, (1, 0), "changes 1 (line 7) and 0 (line 5)")

    def test_not_each_once(self):
        script, root = begun()
        script.delete(root[1])
        script.order(0, 0)
        self.assert_refused(script, Refusal.NOT_EACH_ONCE, (), "change 0 (line 4) is there twice")

    def test_owner_too_early(self):
        script, root = begun()
        block = script.tree(BLOCK)
        script.map(block, root[1], block[1])
        script.replace(root[1][0], *words(script, "x"))
        script.replace(root[1], block)
        script.order(1, 0)
        self.assert_refused(script, Refusal.OWNER_TOO_EARLY)

    def test_gap_out_of_order(self):
        script, root = begun()
        a, b = words(script, "a", "b")
        script.insert(Position.first(root), a)
        script.insert(Position.first(root), b)
        script.order(0, 1)
        self.assert_refused(script, Refusal.GAP_OUT_OF_ORDER)

    def test_token_too_early(self):
        script, root = begun()
        a, b = words(script, "a", "b")
        script.replace(root[2], a)
        script.insert(Position.after(root[2]), b)
        script.order(0, 1)
        self.assert_refused(script, Refusal.TOKEN_TOO_EARLY)

    def test_too_long(self):
        # 10,000 copies of 500,000 bytes are more than 4,294,967,295.
        script, root = begun(node(Kind.SOURCE_FILE, token(Kind.IDENT, "x" * 500000)))
        script.insert(Position.last(root), *[root[0]] * 10000)
        self.assert_refused(script, Refusal.TOO_LONG)

    def test_the_enum_has_all_that_the_page_names(self):
        page = (ROOT / "docs/SCRIPTS.md").read_text(encoding="utf-8")
        table = page.split("| refusal |")[1].split("\n\n")[0]
        names = [name for row in table.split("\n")[2:] for name in re.findall(r"`([A-Z]\w+)", row.split("|")[1])]
        self.assertEqual(sorted(names), sorted(refusal.value for refusal in Refusal))


class Mistakes(unittest.TestCase):
    """What isn't a refusal: lines that are bad, and what the builder finds itself."""

    def assert_bad(self, script, line):
        with self.assertRaises(BadScript) as caught:
            script.finish()
        self.assertEqual(caught.exception.line, line)
        self.assertTrue(caught.exception.sentence)
        self.assertEqual(str(caught.exception), caught.exception.sentence)

    def test_lines_in_the_wrong_place(self):
        script = Script()
        script.delete(script.tree(ARGUMENTS)[0])
        self.assert_bad(script, 3)
        script, root = begun()
        script.edit(root)
        self.assert_bad(script, 4)
        script, _ = begun()
        script.order()
        script.order()
        self.assert_bad(script, 5)

    def test_elements_in_the_wrong_place(self):
        script, root = begun()
        script.insert(Position.before(root), root[0])
        self.assert_bad(script, 4)
        script, root = begun()
        script.insert(Position.first(root[0]), root[0])
        self.assert_bad(script, 4)
        script, root = begun()
        script.delete(root[0])
        script.order(-1)
        self.assert_bad(script, 5)

    def test_no_limit_of_the_other_dialect(self):
        tree = node(Kind.TUPLE_EXPR, token(Kind.IDENT, "x" * 1048576))
        for _ in range(5000):
            tree = node(Kind.TUPLE_EXPR, tree)
        script, root = begun(tree)
        script.insert(Position.last(root), script.indent(root).at([0] * 5001))
        edit = script.finish(tree=True)
        self.assertEqual((edit.text, edit.tree.length), (2 * "x" * 1048576, 2 * 1048576))

    def test_kinds_of_its_own(self):
        script, root = begun(node("call", token("name", "f"), node("arguments", token(Kind.COMMA, ","), token("name", "a"))))
        self.assertEqual([it.kind for it in root], ["name", "arguments"])
        script.replace(root[0], script.tree(node("new", token("word", "g")))[0])
        script.remove(root[1][1], "comma")
        self.assertEqual(str(script).split("\n")[0], "kinds call arguments name new word comma")
        self.assertEqual(script.finish(), Edit("g,", ((0,),), {}))
        for kind in ("", "+=", "a b", "é"):
            with self.assertRaises(ValueError):
                token(kind, "a")

    def test_elements_of_another_script(self):
        script, _ = begun()
        _, other = begun()
        for record in (script.delete, script.edit):
            with self.assertRaises(ValueError):
                record(other)
        with self.assertRaises(ValueError):
            script.insert(Position.first(other), script.tree(ARGUMENTS))

    def test_children_that_are_not_there(self):
        _, root = begun()
        for element, number in ((root, 6), (root, -1), (root[0], 0)):
            with self.assertRaises(IndexError):
                element[number]

    def test_what_would_be_other_lines(self):
        script, root = begun()
        for word in ("a b", "a\ndelete R/0", "a\n", "", "1a", "é", "a" * 33):
            with self.assertRaises(ValueError):
                script.note(word, root)
        with self.assertRaises(ValueError):
            token(Kind.IDENT, "\ud800")
        for make in (lambda: token(1, "a"), lambda: node(None), lambda: node(Kind.NAME, "a")):
            with self.assertRaises(TypeError):
                make()
        for make in (lambda: script.remove(root[1], 1), lambda: script.tree(token(Kind.IDENT, "a"))):
            with self.assertRaises(TypeError):
                make()
        for shift in (script.indent, script.dedent):
            with self.assertRaises(TypeError):
                shift(root[0])
            with self.assertRaises(ValueError):
                shift(begun()[1])
        self.assertEqual(script.finish(), Edit("(1, 2)", (), {}))


class Mending(unittest.TestCase):
    """A refused script is left as it is, and can be mended."""

    def test_finish_leaves_the_script(self):
        script, root = begun()
        before = bytes(script)
        self.assertEqual(script.finish(), script.finish())
        script.delete(root[1])
        self.assertEqual(script.finish(), Edit("(, 2)", (), {}))
        self.assertNotEqual(bytes(script), before)

    def test_check(self):
        script, root = begun()
        self.assertIsNone(script.check())
        line = script.delete(root)
        self.assertEqual(line, 4)
        error = script.check()
        self.assertEqual((type(error), error.refusal, error.lines), (Refused, Refusal.DELETES_ROOT, (line,)))
        script.take_back(line)
        self.assertIsNone(script.check())
        self.assertEqual(script.delete(root[0]), 5)
        self.assertEqual(script.finish(), Edit("1, 2)", (), {}))

    def test_lines_that_can_be_taken_back(self):
        script, root = begun()
        block = script.tree(BLOCK)
        taken = [
            script.map(block, root[1], block[1]),
            script.insert(Position.first(root), root[0]),
            script.insert_with_whitespace(Position.first(root), root[0]),
            script.delete(root[2]),
            script.replace(root[3], root[0]),
            script.range(root[0], root[1], root[4]),
            script.remove(root[1], Kind.COMMA),
            script.note("word", root),
            script.order(0, 1),
        ]
        self.assertEqual(taken, list(range(5, 14)))
        script.indent(root)
        for line in taken:
            script.take_back(line)
        self.assertEqual(script.finish(), Edit("(1, 2)", (), {}))
        for line in (0, 1, 2, 3, 4, 5, 14, 15, -1):
            with self.assertRaises(ValueError):
                script.take_back(line)


class Answers(unittest.TestCase):
    """What is told of an edit, and what is no answer."""

    def assert_whole(self, old, edit):
        """The edits of the old text give the new one, the tree is its tree, and each path has the range of its element."""
        new = edit.text.encode()
        self.assertEqual(apply_edits(edit.edits, old.encode()), new)
        self.assertEqual(apply_edits(edit.edits, old), edit.text)
        self.assertEqual(edit.tree.text, edit.text)
        self.assertEqual(set(edit.ranges), {*edit.changed}.union(*edit.notes.values()))
        root = Script().tree(edit.tree)
        for path, (start, end) in edit.ranges.items():
            self.assertEqual((root.at(path).range, new[start:end].decode()), ((start, end), root.at(path).text))

    def test_by_hand(self):
        script, root = begun(node(Kind.NAME, token(Kind.IDENT, "é"), token(Kind.IDENT, "b"), token(Kind.IDENT, "c")))
        script.note("last", root[2])
        script.note("root", root)
        script.replace(root[1], *words(script, "ö", "\t"))
        edit = script.finish(tree=True)
        self.assertEqual(edit.edits, (TextEdit(2, 3, "ö\t"),))
        self.assertEqual(edit.ranges, {(1,): (2, 4), (2,): (4, 5), (3,): (5, 6), (): (0, 6)})
        texts = (token(Kind.IDENT, text) for text in ("é", "ö", "\t", "c"))
        self.assertEqual(edit.tree, node(Kind.NAME, *texts))
        self.assertEqual(in_characters(edit.edits, root.text), ((1, 2, "ö\t"),))
        self.assert_whole(root.text, edit)
        plain = script.finish()
        self.assertEqual((plain, plain.edits, plain.ranges, plain.tree), (edit, edit.edits, edit.ranges, None))
        self.assertLess(len(repr(edit)), 120)

    def test_random_edits(self):
        chance = random.Random(1)
        done = refused = 0
        for _ in range(300):
            script, root = begun(random_tree(chance, 3))
            new = below(script.tree(random_tree(chance, 2))) + below(script.indent(root))
            for word in "abcdef"[: chance.randrange(6)]:
                random_change(chance, script, word, below(root), new)
            try:
                edit = script.finish(tree=True)
            except Refused as error:
                refused += 1
                # A refusal is the same whatever is asked for, but for the number of a last line.
                plain = script.check()
                self.assertEqual((plain.refusal, plain.changes), (error.refusal, error.changes))
                continue
            done += 1
            self.assert_whole(root.text, edit)
            self.assertEqual(script.finish(), edit)
        self.assertTrue(done > 100 and refused > 10, (done, refused))

    def test_trees_further_in_are_those_of_the_program(self):
        chance = random.Random(2)
        for _ in range(50):
            script = Script()
            tree = script.tree(random_tree(chance, 4))
            for shift in chance.choices([script.indent, script.dedent], k=3):
                tree = shift(tree)
            script.edit(tree)
            edit = script.finish(tree=True)
            self.assertEqual((edit.text, edit.tree), (tree.text, tree.tree))

    def test_edits_that_are_none_of_a_text(self):
        for edits in ([(1, 0)], [(0, 4)], [(0, 2), (0, 2)], [(2, 3), (0, 2)], [(4, 4)]):
            for source in ("éa", b"\xc3\xa9a"):
                with self.assertRaises(ValueError):
                    apply_edits([TextEdit(start, end, "") for start, end in edits], source)
        for edits in ([(1, 2)], [(0, 1)], [(1, 3)]):
            with self.assertRaises(ValueError):
                in_characters([TextEdit(start, end, "") for start, end in edits], "éa")
        self.assertEqual(apply_edits([], b""), b"")
        self.assertEqual(apply_edits([TextEdit(1, 1, "x"), TextEdit(1, 1, "y"), TextEdit(1, 2, "")], "ab"), "axy")

    def test_answers_of_other_formats(self):
        begins = ("", "text", 'text ""', 'text ""\n', 'text ""\nchange\n', 'text ""\nchangedx\n', 'text ""\nchanged')
        texts = ('text "\\x"\nchanged\n', 'text "\\"\nchanged\n', 'text """\nchanged\n', "text \nchanged\n")
        places = ("a", "", "0/", "/0", "-1", "0@", "0@1", "0@1..", "0@..1", "@0..1", "0@1...2", ".0", "0 ", "0  1", "٣")
        for answer in (*begins, *texts, *(f'text ""\nchanged {place}\n' for place in places)):
            with self.assertRaises(ValueError, msg=answer):
                Edit.parse(answer)
        edits = ("edit", "edit 1 2", "edit 1 2 x", 'edit 1 2 "', 'edit 1 2 "\\"', 'edit 1 2 """', 'edit a 2 ""', 'edit 1  2 ""')
        trees = (
            "tree", "tree ", "tree A", 'tree A"a"', "tree ()", "tree (A", "tree (A))", "tree (A) (A)", "tree (A) ", "tree )",
            'tree (A a)', 'tree (A a"\\x")', 'tree (A a")', "tree (A -)", 'tree (A a "b")', "tree (é)",
        )
        others = ("notes w", "note w ", "note", "note w a", "", "tree (A)\ntree (A)", 'tree (A)\nedit 0 0 ""', "tree (A)\nnote w")
        for line in (*edits, *trees, *others, 'edit 0 0 ""\nnote w'):
            with self.assertRaises(ValueError, msg=line):
                Edit.parse(f'text ""\nchanged\n{line}\n')

    def test_trees_come_back(self):
        chance = random.Random(3)
        for _ in range(200):
            tree = random_tree(chance, 5)
            self.assertEqual(Edit.parse(f'text ""\nchanged\ntree {expression(tree)}\n').tree, tree)
        deep = "(A " * 100000 + 'a"b"' + ")" * 100000
        read = Edit.parse(f'text ""\nchanged\ntree {deep}\n').tree
        self.assertEqual((read.text, expression(read)), ("b", deep))


def random_tree(chance, depth):
    """A tree whose tokens have escapes, whitespace with lines, and nothing."""
    texts = ("a", "é", "\n", "\n    ", " ", "\t\"\\", "", "\r\n      ", "𝄞x")
    kinds = ("WHITESPACE", "WHITESPACE", "IDENT", "LET_STMT", "STMT_LIST", "L_CURLY", "COMMA", "USE", "own")
    children = []
    for _ in range(chance.randrange(1, 5)):
        is_node = depth > 0 and chance.random() < 0.5
        children.append(random_tree(chance, depth - 1) if is_node else token(chance.choice(kinds), chance.choice(texts)))
    return node(chance.choice(kinds), *children)


def random_change(chance, script, word, old, new):
    """Records a change of some of the old elements, with some of the new ones."""
    target, other, *given = chance.choice(old), chance.choice(old), *chance.choices(old + new, k=chance.randrange(1, 3))
    where = Position.last(target) if isinstance(target.tree, Node) else Position.after(target)
    record = chance.choice((
        lambda: script.insert(where, *given),
        lambda: script.insert_with_whitespace(where, *given),
        lambda: script.replace(target, *given),
        lambda: script.delete(target),
        lambda: script.range(target, other, *given),
        lambda: script.remove(target, Kind.COMMA),
    ))
    record()
    script.note(word, chance.choice((target, *given)))


class Elements(unittest.TestCase):
    def test_ways(self):
        _, root = begun()
        one = root.at([1, 0])
        self.assertEqual((str(one), one.text, one.kind), ("R/1/0", "1", Kind.INT_NUMBER))
        self.assertEqual((one.parent, one.parent.parent, root.parent), (root[1], root, None))
        self.assertEqual(root.children, tuple(root))
        self.assertEqual((len(root.children), one.children), (6, ()))
        for path in ([6], [0, 0], [1, 1]):
            with self.assertRaises(IndexError):
                root.at(path)

    def test_equal_by_place(self):
        script, root = begun()
        other = script.tree(ARGUMENTS)
        self.assertEqual(len({root, root[1], root.at([1]), other, other[1], begun()[1]}), 5)
        self.assertNotEqual(root[0], 0)

    def test_nothing_walks_the_tree(self):
        tree = node(Kind.TUPLE_EXPR)
        for _ in range(5000):
            tree = node(Kind.TUPLE_EXPR, tree)
        root = Script().tree(tree)
        self.assertEqual(repr(root[0]), "<Element T0/0 TUPLE_EXPR>")
        self.assertEqual(hash(root[0]), hash(root[0]))
        self.assertEqual(root[0], root[0])


class Texts(unittest.TestCase):
    def test_each_character_comes_back(self):
        characters = [chr(code) for code in range(0x300)] + ["\u2028", "\u2029", "\ufeff", "\uffff", "\U0010ffff"]
        for text in characters + ["\\n", '\\"', '"\n\\', " a ", 'x")\nfinish\n']:
            script, root = begun(node(Kind.SOURCE_FILE, token(Kind.COMMENT, text)))
            script.insert(Position.last(root), root[0])
            self.assertEqual(script.finish().text, 2 * text)

    def test_escapes(self):
        script = Script()
        script.tree(node(Kind.NAME, token(Kind.COMMENT, 'a\n\r\t"\\\x0b')))
        self.assertEqual(str(script), '\ntree T0 (NAME COMMENT"a\\n\\r\\t\\"\\\\\x0b")\n')

    def test_each_kind_is_one_of_the_sources(self):
        source = (ROOT / "crates/green_tree/src/kind.rt").read_text(encoding="utf-8")
        names = re.findall(r'^    "(\w+)",$', source, flags=re.M)
        self.assertEqual([kind.value for kind in Kind], names)
        self.assertEqual([kind.name for kind in Kind], names)
        for kind in Kind:
            self.assertEqual(begun(node(kind, token(kind, kind.value)))[0].finish().text, kind.value)


class Calls(unittest.TestCase):
    def test_an_answer_that_needs_more_room(self):
        script, root = begun(node(Kind.SOURCE_FILE, token(Kind.IDENT, "x" * 100000)))
        script.insert(Position.last(root), *[root[0]] * 100)
        self.assertEqual(script.finish().text, "x" * 10100000)

    def test_a_sentence_that_needs_more_room(self):
        said = explain(b"no")
        self.assertTrue(said.startswith('line 1, column 1, at "no": '), said)
        with mock.patch.object(_library, "SENTENCE_ROOM", 1):
            self.assertEqual(explain(b"no"), said)

    def test_only_bytes_are_a_script(self):
        for script in (None, "finish", bytearray(b"finish")):
            with self.assertRaises(TypeError):
                run(script)

    def test_no_memory(self):
        with mock.patch.object(_edit, "run", return_value=(Status.FAILED, b"")):
            with self.assertRaises(Failed):
                begun()[0].finish()

    def test_no_library(self):
        with mock.patch.dict("os.environ", SYNED_LIB=str(ROOT / "docs")):
            with self.assertRaisesRegex(NoLibrary, "bash bindings/build.sh"):
                run(b"")

    def test_a_library_that_is_none(self):
        with tempfile.TemporaryDirectory() as folder:
            (Path(folder) / "libsyned.so").write_bytes(b"no library")
            with mock.patch.dict("os.environ", SYNED_LIB=folder):
                with self.assertRaisesRegex(NoLibrary, "can't be loaded .* `bash bindings/build.sh` makes it anew"):
                    run(b"")

    def test_a_folder_for_the_library(self):
        with mock.patch.dict("os.environ", SYNED_LIB=str(ROOT / "bindings/out")):
            self.assertEqual(run(b"")[0], Status.BAD_SCRIPT)

    def test_one_class_of_errors(self):
        for error in (Refused, BadScript, Failed, NoLibrary):
            self.assertTrue(issubclass(error, SynedError))


if __name__ == "__main__":
    unittest.main()
